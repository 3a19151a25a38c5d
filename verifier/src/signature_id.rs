//! gpg's ID of a signature, by which a program may notice that it has seen the same signature before.

use sequoia_openpgp::crypto::hash::Digest;
use sequoia_openpgp::types::HashAlgorithm;

use crate::keys::{ED25519, ED448};
use crate::signature::Signature;

/// A digest, as gpg spells it, of the algorithms, the time and the numbers of a signature. None if its numbers can't be
/// read.
pub fn of(signature: &Signature, created: u32) -> Option<String> {
    let mut hash = HashAlgorithm::SHA1.context().ok()?;
    hash.update(&[signature.key_algorithm, signature.hash_algorithm]);
    hash.update(&created.to_be_bytes());
    let mut rest = signature.material;
    while !rest.is_empty() {
        // These have octets in place of numbers, which gpg's formula takes unchanged.
        if matches!(signature.key_algorithm, ED25519 | ED448) {
            hash.update(std::mem::take(&mut rest));
            continue;
        }
        let (number, more) = number(rest)?;
        hash.update(&bits(number).to_be_bytes());
        hash.update(number);
        rest = more;
    }
    let mut digest = [0; 20];
    hash.digest(&mut digest).ok()?;
    Some(base64::encode_config(digest, base64::STANDARD_NO_PAD))
}

/// The first number (RFC 9580, section 3.2), without zeros before it, and what follows.
fn number(octets: &[u8]) -> Option<(&[u8], &[u8])> {
    let (length, rest) = (octets.get(..2)?, &octets[2..]);
    let length = (usize::from(u16::from_be_bytes([length[0], length[1]])) + 7) / 8;
    let number = rest.get(..length)?;
    let zeros = number.iter().take_while(|octet| **octet == 0).count();
    Some((&number[zeros..], &rest[length..]))
}

/// How many bits a number without leading zeros has.
fn bits(number: &[u8]) -> u16 {
    let unused = number.first().map_or(0, |first| first.leading_zeros() as usize);
    (8 * number.len() - unused) as u16
}

#[cfg(test)]
mod tests {
    use super::*;

    fn id(material: &[u8]) -> Option<String> {
        let body = [&[4, 0, 22, 8, 0, 0, 0, 0, 0xab, 0xcd][..], material].concat();
        of(&Signature::read(&body).unwrap(), 0x0102_0304)
    }

    #[test]
    fn it_is_a_digest_of_the_numbers() {
        // As `printf '\x16\x08\x01\x02\x03\x04\x00\x01\x01\x00\x09\x01\x00' | openssl sha1 -binary | base64` has it.
        let expected = Some("5u04ieFsQDTJMUyY63Yp4i9x93s".to_owned());
        assert_eq!(id(&[0, 1, 1, 0, 9, 1, 0]), expected);
        assert_eq!(id(&[0, 8, 1, 0, 24, 0, 1, 0]), expected, "zeros before a number don't count");
        assert_ne!(id(&[0, 1, 1, 0, 9, 1, 1]), expected);
        for material in [&[0][..], &[0, 1], &[0, 1, 1, 0, 9, 1]] {
            assert_eq!(id(material), None);
        }
    }
}
