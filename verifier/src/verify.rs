//! Whether a key made a signature: the digest of RFC 9580, section 5.2.4, over unchanged octets, and the library's
//! arithmetic. Nothing is asked of dates, hashes or key sizes: the engine has a policy of its own.

use nettle::{ed25519, ed448, rsa};
use sequoia_openpgp as openpgp;

use openpgp::crypto::mpi;
use openpgp::packet::key::{PublicParts, UnspecifiedRole};
use openpgp::packet::Key;
use openpgp::serialize::MarshalInto;
use openpgp::types::{HashAlgorithm, PublicKeyAlgorithm};

use crate::certificate::PlacedSignature;
use crate::hasher::{has_right_salt, Hasher, SHA3_256, SHA3_512};
use crate::keys::{VerifyingKey, ECDSA, ED25519, ED448};
use crate::number::Place;
use crate::signature::Signature;

#[derive(Clone, Copy, Debug, PartialEq, Eq)]
pub enum Failure {
    /// The key didn't make the signature.
    Wrong,
    /// The library doesn't know the curve or the algorithm, so that nothing can be said.
    Unsupported,
}

/// How a key is hashed: a mark, the octets of its length, its body.
#[derive(Clone, Copy, PartialEq, Eq)]
enum Framing {
    V4,
    V6,
}

impl Framing {
    fn of_version(version: u8) -> Framing {
        match version {
            6 => Framing::V6,
            _ => Framing::V4,
        }
    }

    fn hash(self, key: &[u8], hasher: &mut Hasher) -> Result<(), Failure> {
        match self {
            Framing::V4 => {
                hasher.update(&[0x99]);
                hasher.update(&u16::try_from(key.len()).map_err(|_| Failure::Wrong)?.to_be_bytes());
            }
            Framing::V6 => {
                hasher.update(&[0x9b]);
                hasher.update(&(key.len() as u32).to_be_bytes());
            }
        }
        hasher.update(key);
        Ok(())
    }
}

/// The digests that a signature on a component of a key may be of.
///
/// There are two if the versions of the key and of the signature differ: RFC 9580 hashes the key by the signature's
/// version, and most programs by the key's.
pub fn digests(key: &[u8], placed: &PlacedSignature, signature: &Signature) -> Result<Vec<Vec<u8>>, Failure> {
    let framings = [Framing::of_version(key[0]), Framing::of_version(signature.version)];
    let count = if framings[0] == framings[1] { 1 } else { 2 };
    framings[..count].iter().map(|framing| digest(*framing, key, placed, signature)).collect()
}

fn digest(framing: Framing, key: &[u8], placed: &PlacedSignature, signature: &Signature) -> Result<Vec<u8>, Failure> {
    if !has_right_salt(signature) {
        return Err(Failure::Wrong);
    }
    let mut hasher = Hasher::new(signature.hash_algorithm).ok_or(Failure::Wrong)?;
    hasher.update(signature.salt);
    framing.hash(key, &mut hasher)?;
    match placed.place {
        Place::Key => {}
        Place::UserId => hash_name(0xb4, placed.component, &mut hasher),
        Place::Attribute => hash_name(0xd1, placed.component, &mut hasher),
        Place::Subkey => framing.hash(placed.component, &mut hasher)?,
    }
    hasher.update_trailer(signature);
    hasher.digest().ok_or(Failure::Wrong)
}

fn hash_name(mark: u8, name: &[u8], hasher: &mut Hasher) {
    hasher.update(&[mark]);
    hasher.update(&(name.len() as u32).to_be_bytes());
    hasher.update(name);
}

/// Whether this key made the signature whose digest this is.
pub fn verify(key: &VerifyingKey, signature: &Signature, digest: &[u8]) -> Result<(), Failure> {
    if !digest.starts_with(&signature.digest_front) {
        return Err(Failure::Wrong);
    }
    let is_good = match key {
        VerifyingKey::Library(key) => return verify_by_library(key, signature, digest),
        VerifyingKey::Ed25519(key) if signature.key_algorithm == ED25519 => {
            ed25519::verify(key, digest, signature.material)
        }
        VerifyingKey::OnCurve(key) if signature.key_algorithm == ECDSA => {
            return key.verify(digest, signature.material);
        }
        VerifyingKey::Ed448(_) if !ed448::IS_SUPPORTED => return Err(Failure::Unsupported),
        // Nettle doesn't look at the last octet, which is zero in every valid signature (RFC 8032, section 5.2.7).
        VerifyingKey::Ed448(key) if signature.key_algorithm == ED448 && signature.material.ends_with(&[0]) => {
            ed448::verify(key, digest, signature.material)
        }
        _ => Ok(false),
    };
    // An Err says that the material hasn't the size of a signature.
    if is_good.unwrap_or(false) { Ok(()) } else { Err(Failure::Wrong) }
}

type LibraryKey = Key<PublicParts, UnspecifiedRole>;

fn verify_by_library(key: &LibraryKey, signature: &Signature, digest: &[u8]) -> Result<(), Failure> {
    let algorithm = PublicKeyAlgorithm::from(signature.key_algorithm);
    if !is_known(key) {
        return Err(if key.pk_algo() == algorithm { Failure::Unsupported } else { Failure::Wrong });
    }
    let material = mpi::Signature::parse(algorithm, signature.material).map_err(|_| Failure::Wrong)?;
    if material.serialized_len() != signature.material.len() {
        return Err(Failure::Wrong);
    }
    if let (mpi::PublicKey::RSA { e, n }, mpi::Signature::RSA { s }, Some(info)) =
        (key.mpis(), &material, sha3_digest_info(signature.hash_algorithm))
    {
        let key = rsa::PublicKey::new(n.value(), e.value()).map_err(|_| Failure::Wrong)?;
        let is_good = rsa::verify_digest_pkcs1(&key, digest, info, s.value());
        return if is_good.unwrap_or(false) { Ok(()) } else { Err(Failure::Wrong) };
    }
    let hash = HashAlgorithm::from(signature.hash_algorithm);
    key.verify(&material, hash, digest).map_err(|error| match error.downcast_ref() {
        Some(openpgp::Error::UnsupportedEllipticCurve(_)) => Failure::Unsupported,
        _ => Failure::Wrong,
    })
}

fn is_known(key: &LibraryKey) -> bool {
    use mpi::PublicKey::{EdDSA, DSA, ECDSA, RSA};
    matches!(key.mpis(), RSA { .. } | DSA { .. } | EdDSA { .. } | ECDSA { .. })
}

/// What precedes a digest by SHA-3 in an RSA signature (RFC 9580, section 5.2.2; RFC 8017, section 9.2).
fn sha3_digest_info(hash_algorithm: u8) -> Option<&'static [u8]> {
    match hash_algorithm {
        SHA3_256 => Some(b"\x30\x31\x30\x0d\x06\x09\x60\x86\x48\x01\x65\x03\x04\x02\x08\x05\x00\x04\x20"),
        SHA3_512 => Some(b"\x30\x51\x30\x0d\x06\x09\x60\x86\x48\x01\x65\x03\x04\x02\x0a\x05\x00\x04\x40"),
        _ => None,
    }
}
