//! Version 4 and version 6 keys: their parts, the form that verifies, and the public part of secret ones.

use std::time::{Duration, UNIX_EPOCH};

use sequoia_openpgp as openpgp;

use openpgp::crypto::mpi;
use openpgp::packet::key::{Key4, PublicParts, UnspecifiedRole};
use openpgp::packet::Key;
use openpgp::types::PublicKeyAlgorithm;

use crate::certificate::Certificate;
use crate::curves;

/// Public-key algorithms that the library doesn't know (RFC 9580, section 9.1).
pub const ED25519: u8 = 27;
pub const ED448: u8 = 28;
/// Over the NIST curves, which the library knows, and others, which it doesn't (`curves`).
pub const ECDSA: u8 = 19;
/// An algorithm that version 6 keys may not have.
const EDDSA_LEGACY: u8 = 22;

/// A key that can verify.
pub enum VerifyingKey {
    Library(Key<PublicParts, UnspecifiedRole>),
    Ed25519(Vec<u8>),
    Ed448(Vec<u8>),
    /// Of ECDSA.
    OnCurve(curves::PublicKey),
}

impl VerifyingKey {
    /// Whether the library verifies with this key by itself, if its version is 4.
    pub fn is_of_library(&self) -> bool {
        matches!(self, VerifyingKey::Library(_))
    }
}

/// The parts of a public key's body (RFC 9580, sections 5.5.2.2 and 5.5.2.3).
pub struct Parts<'a> {
    pub version: u8,
    pub created: u32,
    algorithm: u8,
    material: &'a [u8],
}

impl<'a> Parts<'a> {
    /// None unless the body is of version 4 or 6 and has all its parts.
    pub fn read(body: &'a [u8]) -> Option<Parts<'a>> {
        let head = body.get(..6)?;
        let created = u32::from_be_bytes([head[1], head[2], head[3], head[4]]);
        let material = match head[0] {
            4 if body.len() <= 0xffff => &body[6..],
            6 => body.get(10..).filter(|material| material.len() == material_length(body))?,
            _ => return None,
        };
        Some(Parts { version: head[0], created, algorithm: head[5], material })
    }
}

/// What a version 6 key says of the length of its material.
fn material_length(body: &[u8]) -> usize {
    u32::from_be_bytes([body[6], body[7], body[8], body[9]]) as usize
}

/// The form of a key that verifies, or None if neither this program nor the library can read it.
pub fn verifying_key(body: &[u8]) -> Option<VerifyingKey> {
    let Parts { version, created, algorithm, material } = Parts::read(body)?;
    match algorithm {
        ED25519 => return (material.len() == 32).then(|| VerifyingKey::Ed25519(material.to_vec())),
        ED448 => return (material.len() == 57).then(|| VerifyingKey::Ed448(material.to_vec())),
        EDDSA_LEGACY if version == 6 => return None,
        ECDSA if curves::is_curve_of(material) => {
            return curves::PublicKey::read(material).map(VerifyingKey::OnCurve);
        }
        _ => {}
    }
    let algorithm = PublicKeyAlgorithm::from(algorithm);
    let material = mpi::PublicKey::parse(algorithm, material).ok()?;
    if !is_usable(&material) {
        return None;
    }
    // Neither the version nor the time has a part in verifying: the digest is made elsewhere.
    let created = UNIX_EPOCH + Duration::from_secs(created.into());
    let key: Key4<PublicParts, UnspecifiedRole> = Key4::new(created, algorithm, material).ok()?;
    Some(VerifyingKey::Library(key.into()))
}

/// The largest keys that are used: a signature by one of them takes some 10 ms to verify, however it was chosen.
mod largest {
    /// gpg reads no longer number, and OpenSSL verifies with no longer RSA key. Sequoia has no bound.
    pub const RSA: usize = 16384;
    /// An RSA key longer than this has a short exponent, as OpenSSL requires it.
    pub const RSA_WITH_LONG_EXPONENT: usize = 3072;
    pub const LONG_EXPONENT: usize = 256;
    pub const SHORT_EXPONENT: usize = 64;
    /// OpenSSL's bound. FIPS 186-4 has 3072.
    pub const DSA: usize = 10000;
    /// FIPS 186-4 has 256, and gpg makes keys of up to 512.
    pub const DSA_SUBGROUP: usize = 512;
}

/// Whether no modulus is zero, for which the library's arithmetic would end the process, and no number is so large that
/// verifying takes long.
fn is_usable(material: &mpi::PublicKey) -> bool {
    match material {
        mpi::PublicKey::RSA { n, e } => {
            let is_long = n.bits() > largest::RSA_WITH_LONG_EXPONENT;
            let exponent = if is_long { largest::SHORT_EXPONENT } else { largest::LONG_EXPONENT };
            (1..=largest::RSA).contains(&n.bits()) && e.bits() <= exponent
        }
        mpi::PublicKey::DSA { p, q, g, y } => {
            let is_short = |number: &mpi::MPI| number.bits() <= largest::DSA;
            p.bits() > 0 && [p, g, y].into_iter().all(is_short) && (1..=largest::DSA_SUBGROUP).contains(&q.bits())
        }
        _ => true,
    }
}

/// Whether a certificate has a key that is too large to be used. The library has no bound, and doesn't get to see it.
pub fn has_too_large(certificate: &Certificate) -> bool {
    certificate.keys().any(is_too_large)
}

fn is_too_large(body: &[u8]) -> bool {
    let material = Parts::read(body)
        .and_then(|parts| mpi::PublicKey::parse(PublicKeyAlgorithm::from(parts.algorithm), parts.material).ok());
    material.map_or(false, |material| !is_usable(&material))
}

/// Whether a key is of RSA with fewer than 2048 bits, which may no longer sign data.
pub fn is_short(body: &[u8]) -> bool {
    match verifying_key(body) {
        Some(VerifyingKey::Library(key)) => match key.mpis() {
            mpi::PublicKey::RSA { n, .. } => n.bits() < 2048,
            _ => false,
        },
        _ => false,
    }
}

/// How many octets of a secret key's body are its public key; None if its version or algorithm isn't known.
pub fn public_length(body: &[u8]) -> Option<usize> {
    const HEAD: usize = 6;
    let numbers = |count: usize, from: usize| (0..count).try_fold(from, |at, _| number_end(body, at));
    let curve = || Some(HEAD + 1 + *body.get(HEAD)? as usize);
    let end = match (*body.first()?, *body.get(5)?) {
        (6, _) if body.len() >= 10 => 10usize.checked_add(material_length(body))?,
        (4, 1..=3) => numbers(2, HEAD)?,
        (4, 16 | 20) => numbers(3, HEAD)?,
        (4, 17) => numbers(4, HEAD)?,
        (4, 18) => {
            let derivation = numbers(1, curve()?)?;
            derivation + 1 + *body.get(derivation)? as usize
        }
        (4, 19 | 22) => numbers(1, curve()?)?,
        (4, 25 | 27) => HEAD + 32,
        (4, 26) => HEAD + 56,
        (4, 28) => HEAD + 57,
        _ => return None,
    };
    (end <= body.len()).then(|| end)
}

/// Where the multiprecision integer that begins at a place ends.
fn number_end(body: &[u8], at: usize) -> Option<usize> {
    let bits = body.get(at..at + 2)?;
    let bits = u16::from_be_bytes([bits[0], bits[1]]) as usize;
    Some(at + 2 + (bits + 7) / 8)
}

#[cfg(test)]
mod tests {
    use super::*;

    #[test]
    fn the_public_part_of_each_algorithm() {
        let head = |algorithm: u8| vec![4, 0, 0, 0, 1, algorithm];
        let number = [0, 9, 1, 0xff];
        let bodies = [
            [head(1), number.repeat(2)].concat(),
            [head(17), number.repeat(4)].concat(),
            [head(16), number.repeat(3)].concat(),
            [head(22), vec![2, 0x2b, 6], number.to_vec()].concat(),
            [head(18), vec![2, 0x2b, 6], number.to_vec(), vec![3, 1, 8, 9]].concat(),
            [head(27), vec![5; 32]].concat(),
            vec![6, 0, 0, 0, 1, 99, 0, 0, 0, 2, 5, 5],
        ];
        for body in bodies {
            let secret = [&body[..], &[0, 1, 2, 3]].concat();
            assert_eq!(public_length(&secret), Some(body.len()), "{body:?}");
            assert_eq!(public_length(&body[..body.len() - 1]), None, "{body:?}");
        }
        assert_eq!(public_length(&[3, 0, 0, 0, 1, 1]), None);
        assert_eq!(public_length(&head(99)), None);
        assert_eq!(public_length(&[6, 0, 0, 0, 1, 27]), None);
    }

    #[test]
    fn a_modulus_of_zero_is_no_key() {
        assert!(verifying_key(&[4, 0, 0, 0, 1, 1, 0, 0, 0, 2, 3]).is_none());
        assert!(verifying_key(&[4, 0, 0, 0, 1, 17, 0, 0, 0, 1, 1, 0, 1, 1, 0, 1, 1]).is_none());
        assert!(verifying_key(&[6, 0, 0, 0, 1, 1, 0, 0, 0, 5, 0, 0, 0, 2, 3]).is_none());
    }

    #[test]
    fn the_largest_keys() {
        let number = |bits: usize| {
            let mut octets = vec![0xff; (bits + 7) / 8];
            octets[0] >>= (8 - bits % 8) % 8;
            [&(bits as u16).to_be_bytes()[..], &octets].concat()
        };
        let body = |algorithm: u8, sizes: &[usize]| {
            let numbers: Vec<u8> = sizes.iter().flat_map(|bits| number(*bits)).collect();
            [&[4, 0, 0, 0, 1, algorithm][..], &numbers].concat()
        };
        for sizes in [[16384, 64], [3072, 256], [3073, 64], [1024, 2]] {
            assert!(verifying_key(&body(1, &sizes)).is_some() && !is_too_large(&body(1, &sizes)), "{sizes:?}");
        }
        for sizes in [[16385, 17], [16384, 65], [3073, 65], [3072, 257], [1024, 1024]] {
            assert!(verifying_key(&body(1, &sizes)).is_none() && is_too_large(&body(1, &sizes)), "{sizes:?}");
        }
        for (sizes, is_usable) in [
            ([3072, 256, 3072, 3072], true),
            ([10000, 512, 9999, 9999], true),
            ([10001, 256, 9999, 9999], false),
            ([3072, 513, 3072, 3072], false),
            ([3072, 256, 10001, 3072], false),
            ([3072, 256, 3072, 10001], false),
        ] {
            assert_eq!(verifying_key(&body(17, &sizes)).is_some(), is_usable, "{sizes:?}");
        }
    }

    #[test]
    fn a_version_6_key_has_just_its_material() {
        let head = [6, 0, 0, 0, 1, 27, 0, 0, 0, 32];
        let body = [&head[..], &[5; 32]].concat();
        assert!(matches!(verifying_key(&body), Some(VerifyingKey::Ed25519(material)) if material == [5; 32]));
        assert!(verifying_key(&body[..41]).is_none());
        assert!(verifying_key(&[&body[..], &[0]].concat()).is_none());
        assert!(verifying_key(&[&[4, 0, 0, 0, 1, 28][..], &[5; 32]].concat()).is_none());
    }
}
