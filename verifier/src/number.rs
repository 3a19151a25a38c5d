//! A signature's number: SHA-256 over five fields, each after its length in four octets.

use sequoia_openpgp::crypto::hash::Digest;
use sequoia_openpgp::types::HashAlgorithm;

pub type Number = [u8; 32];

/// What a signature is on; the number is that of the field.
#[derive(Clone, Copy, Debug, PartialEq, Eq, Hash)]
pub enum Place {
    Key = 0,
    UserId = 1,
    Attribute = 2,
    Subkey = 3,
}

/// The number of a signature on a component of a key; the component is empty if it is on the key itself.
pub fn number_of(key: &[u8], place: Place, component: &[u8], signature: &[u8]) -> Number {
    let mut hash = HashAlgorithm::SHA256.context().expect("the library has SHA-256");
    for field in [&b"wot1"[..], key, &[place as u8], component, signature] {
        hash.update(&(field.len() as u32).to_be_bytes());
        hash.update(field);
    }
    let mut number = [0; 32];
    hash.digest(&mut number).expect("the number has the digest's size");
    number
}

#[cfg(test)]
mod tests {
    use super::*;
    use crate::digits::digits;

    #[test]
    fn numbers_are_those_of_the_protocol() {
        // As Python's hashlib has them of these fields.
        let direct = [4, 0x1f, 0x1b, 8, 0, 6, 5, 2, 0, 0, 3, 0xe8, 0, 0, 0, 0];
        let number = number_of(&[4, 0, 0, 3, 0xe8, 0x1b, 1], Place::Key, &[], &direct);
        assert_eq!(digits(&number), "68d0eb5f8ca13914fcddf1b23e5f608bf9847603834da284f01a707208051209");
        let certification = [4, 0x10, 0x1b, 8, 0, 10, 5, 2, 0, 0, 7, 0xd0, 3, 5, 1, 0x78, 0, 0, 0, 0];
        let number = number_of(&[4, 0, 0, 3, 0xe8, 0x1b, 2], Place::UserId, b"a", &certification);
        assert_eq!(digits(&number), "5840f9f9f8f1cf0319951109612c55e5c55500f918ec27c1c184cd305eafe0a3");
    }
}
