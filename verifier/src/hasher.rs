//! Hash algorithms of RFC 9580 (section 9.5): Sequoia's, and SHA-3, which Sequoia lacks and its library Nettle has.

use nettle::hash::{Hash, Sha3_256, Sha3_512};
use sequoia_openpgp::crypto::hash::Digest;
use sequoia_openpgp::types::HashAlgorithm;

use crate::signature::Signature;

pub const SHA3_256: u8 = 12;
pub const SHA3_512: u8 = 14;

#[derive(Clone)]
pub enum Hasher {
    Sequoia(Box<dyn Digest>),
    Nettle(Box<dyn Hash>),
}

impl Hasher {
    /// None if there is no such algorithm.
    pub fn new(algorithm: u8) -> Option<Hasher> {
        match algorithm {
            SHA3_256 => Some(Hasher::Nettle(Box::new(Sha3_256::default()))),
            SHA3_512 => Some(Hasher::Nettle(Box::new(Sha3_512::default()))),
            _ => HashAlgorithm::from(algorithm).context().ok().map(Hasher::Sequoia),
        }
    }

    pub fn update(&mut self, octets: &[u8]) {
        match self {
            Hasher::Sequoia(hash) => hash.update(octets),
            Hasher::Nettle(hash) => hash.update(octets),
        }
    }

    /// What is hashed last: the signature's own front, and its length.
    pub fn update_trailer(&mut self, signature: &Signature) {
        self.update(signature.hashed);
        self.update(&[signature.version, 0xff]);
        self.update(&(signature.hashed.len() as u32).to_be_bytes());
    }

    pub fn digest(self) -> Option<Vec<u8>> {
        match self {
            Hasher::Sequoia(hash) => hash.into_digest().ok(),
            Hasher::Nettle(mut hash) => {
                let mut digest = vec![0; hash.digest_size()];
                hash.digest(&mut digest);
                Some(digest)
            }
        }
    }
}

/// Whether Sequoia has a hash algorithm.
pub fn is_of_library(algorithm: u8) -> bool {
    HashAlgorithm::from(algorithm).is_supported()
}

/// Whether the salt has the size that goes with the hash algorithm; version 4 has none.
pub fn has_right_salt(signature: &Signature) -> bool {
    signature.version != 6 || salt_size(signature.hash_algorithm) == Some(signature.salt.len())
}

/// How many octets of salt a version 6 signature by this algorithm has; None if it may not be used there.
fn salt_size(algorithm: u8) -> Option<usize> {
    match algorithm {
        8 | 11 | SHA3_256 => Some(16),
        9 => Some(24),
        10 | SHA3_512 => Some(32),
        _ => None,
    }
}

#[cfg(test)]
mod tests {
    use super::*;
    use crate::digits::digits;

    #[test]
    fn digests_are_those_of_other_programs() {
        // As Python's hashlib has them of the text `wot`.
        for (algorithm, expected) in [
            (8, "1694716381e9b3da3a5b305ffb1253276cb0dd0f0c36f00db023d5d6f5bf4267"),
            (SHA3_256, "abc3a321a083886179359de9143e71f7dbd56f425542a870e9861da1c13e99e7"),
            (SHA3_512, concat!(
                "6fac61340f56ac4fd1f151a8427f86e4c8f523cdd0675cfae5a2e6f9428038a7",
                "b7becdaa475f2013fa954183b708ca0e25539a70b46c82c73125d563240d1f06"
            )),
        ] {
            let mut hasher = Hasher::new(algorithm).unwrap();
            hasher.update(b"w");
            hasher.update(b"ot");
            assert_eq!(digits(&hasher.digest().unwrap()), expected);
        }
        assert!(Hasher::new(0).is_none());
    }
}
