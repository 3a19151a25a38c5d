//! Fingerprints and key IDs of version 4 and version 6 keys (RFC 9580, sections 5.5.4.2 and 5.5.4.3).

use std::fmt;

use sequoia_openpgp::crypto::hash::Digest;
use sequoia_openpgp::types::HashAlgorithm;

#[derive(Clone, Copy, Debug, PartialEq, Eq, Hash)]
pub enum Fingerprint {
    V4([u8; 20]),
    V6([u8; 32]),
}

#[derive(Clone, Copy, Debug, PartialEq, Eq, Hash)]
pub struct KeyId(pub [u8; 8]);

impl Fingerprint {
    /// The fingerprint of a key's body; None unless it is a well-formed body of version 4 or 6.
    pub fn of_key(body: &[u8]) -> Option<Fingerprint> {
        crate::keys::Parts::read(body)?;
        if body[0] == 6 {
            let mut digest = [0; 32];
            hash_key(HashAlgorithm::SHA256, 0x9b, &(body.len() as u32).to_be_bytes(), body, &mut digest)?;
            return Some(Fingerprint::V6(digest));
        }
        let mut digest = [0; 20];
        hash_key(HashAlgorithm::SHA1, 0x99, &(body.len() as u16).to_be_bytes(), body, &mut digest)?;
        Some(Fingerprint::V4(digest))
    }

    /// The last eight octets of a version 4 fingerprint, the first eight of a version 6 one.
    pub fn key_id(&self) -> KeyId {
        let octets = match self {
            Fingerprint::V4(digest) => &digest[12..],
            Fingerprint::V6(digest) => &digest[..8],
        };
        KeyId(octets.try_into().expect("eight octets"))
    }

    fn octets(&self) -> &[u8] {
        match self {
            Fingerprint::V4(digest) => digest,
            Fingerprint::V6(digest) => digest,
        }
    }
}

fn hash_key(algorithm: HashAlgorithm, front: u8, length: &[u8], body: &[u8], digest: &mut [u8]) -> Option<()> {
    let mut hash = algorithm.context().ok()?;
    hash.update(&[front]);
    hash.update(length);
    hash.update(body);
    hash.digest(digest).ok()
}

/// Lower-case digits.
impl fmt::Display for KeyId {
    fn fmt(&self, f: &mut fmt::Formatter<'_>) -> fmt::Result {
        f.write_str(&crate::digits::digits(&self.0))
    }
}

/// Lower-case digits.
impl fmt::Display for Fingerprint {
    fn fmt(&self, f: &mut fmt::Formatter<'_>) -> fmt::Result {
        f.write_str(&crate::digits::digits(self.octets()))
    }
}

#[cfg(test)]
mod tests {
    use super::*;

    #[test]
    fn a_fingerprint_is_of_the_whole_body() {
        let body = [4, 0, 0, 3, 0xe8, 0x1b, 1];
        // As `sha1sum` has it of 99 00 07 and the body.
        let fingerprint = Fingerprint::of_key(&body).unwrap();
        assert_eq!(fingerprint.to_string(), "7f35c8dbd6b3eb2ffd59cbdd2e41ea291212ac38");
        assert_eq!(fingerprint.key_id(), KeyId([0x2e, 0x41, 0xea, 0x29, 0x12, 0x12, 0xac, 0x38]));
        assert_eq!(Fingerprint::of_key(&body[..5]), None);
        assert_eq!(Fingerprint::of_key(&[5, 0, 0, 3, 0xe8, 0x1b, 1]), None);
    }

    #[test]
    fn a_version_6_fingerprint_begins_with_the_key_id() {
        let body = [6, 0, 0, 3, 0xe8, 27, 0, 0, 0, 1, 7];
        // As `sha256sum` has it of 9b 00 00 00 0b and the body.
        let fingerprint = Fingerprint::of_key(&body).unwrap();
        assert_eq!(fingerprint.to_string(), "cf20993ecf39e2a991c4da42873d9b79d33231f5c3e213a21b9ffa0d181b9cb0");
        assert_eq!(fingerprint.key_id(), KeyId([0xcf, 0x20, 0x99, 0x3e, 0xcf, 0x39, 0xe2, 0xa9]));
        assert_eq!(Fingerprint::of_key(&body[..10]), None);
    }
}
