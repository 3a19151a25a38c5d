//! What a signature says of itself, true or not: what a program shows of it, and by which it looks for certificates.

use std::time::UNIX_EPOCH;

use sequoia_openpgp as openpgp;

use openpgp::KeyHandle;

use crate::fingerprint::{Fingerprint, KeyId};
use crate::signature::{Issuer, Signature};
use crate::signature_id;

/// Subpackets of the hashed area (RFC 9580, section 5.2.3.7).
const CREATED: u8 = 2;
const VALIDITY: u8 = 3;
const SIGNERS_USER_ID: u8 = 28;

/// A signature names its issuer once or twice. More names are looked at no further.
pub const MOST_ISSUERS: usize = 8;

#[derive(Clone, Debug, PartialEq, Eq)]
pub struct Said {
    pub version: u8,
    /// Its type, which gpg calls the class.
    pub kind: u8,
    pub key_algorithm: u8,
    pub hash_algorithm: u8,
    /// Seconds since 1970.
    pub created: Option<u32>,
    /// Seconds since 1970; None if it never expires.
    pub expires: Option<u64>,
    /// At most eight, from both areas.
    pub issuers: Vec<Issuer>,
    /// Whatever octets its maker put there: also controls, and no UTF-8.
    pub signers_user_id: Option<Vec<u8>>,
    /// The ID by which gpg knows it from other signatures; None if its numbers can't be read.
    pub id: Option<String>,
}

impl Said {
    /// Of a signature's body; None unless it is of version 4 or 6 and has all its parts.
    pub fn of(body: &[u8]) -> Option<Said> {
        Signature::read(body).as_ref().map(Said::from)
    }

    /// The issuer's fingerprint, if the signature has it.
    pub fn fingerprint(&self) -> Option<Fingerprint> {
        self.issuers.iter().find_map(|issuer| match issuer {
            Issuer::Fingerprint(fingerprint) => Some(*fingerprint),
            Issuer::KeyId(_) => None,
        })
    }

    /// The issuer's key ID, if the signature has it or a fingerprint.
    pub fn key_id(&self) -> Option<KeyId> {
        self.issuers.first().map(Issuer::key_id)
    }
}

impl From<&Signature<'_>> for Said {
    fn from(signature: &Signature) -> Said {
        // The last of several of one type counts, as it does when the signature is verified.
        let last = |wanted: u8| {
            let subpackets = signature.hashed_subpackets().unwrap_or_default().into_iter().rev();
            subpackets.filter_map(|one| one.split_first()).find(|(kind, _)| *kind & 0x7f == wanted).map(|found| found.1)
        };
        let number = |kind: u8| last(kind).and_then(|content| content.try_into().ok()).map(u32::from_be_bytes);
        let created = number(CREATED);
        let validity = number(VALIDITY).filter(|validity| *validity != 0);
        let mut issuers = signature.issuers();
        issuers.truncate(MOST_ISSUERS);
        Said {
            version: signature.version,
            kind: signature.kind,
            key_algorithm: signature.key_algorithm,
            hash_algorithm: signature.hash_algorithm,
            created,
            expires: created.zip(validity).map(|(created, validity)| u64::from(created) + u64::from(validity)),
            issuers,
            signers_user_id: last(SIGNERS_USER_ID).map(<[u8]>::to_vec),
            id: signature_id::of(signature, created.unwrap_or(0)),
        }
    }
}

/// As the library has it, which reads version 3 too.
impl From<&openpgp::packet::Signature> for Said {
    fn from(sig: &openpgp::packet::Signature) -> Said {
        let seconds = |time: std::time::SystemTime| time.duration_since(UNIX_EPOCH).ok().map(|since| since.as_secs());
        let created = sig.signature_creation_time().and_then(seconds);
        Said {
            version: sig.version(),
            kind: sig.typ().into(),
            key_algorithm: sig.pk_algo().into(),
            hash_algorithm: sig.hash_algo().into(),
            created: created.and_then(|created| u32::try_from(created).ok()),
            expires: sig.signature_expiration_time().and_then(seconds),
            issuers: sig.get_issuers().iter().filter_map(issuer).take(MOST_ISSUERS).collect(),
            signers_user_id: sig.signers_user_id().map(<[u8]>::to_vec),
            id: None,
        }
    }
}

/// None if the fingerprint is of a version that isn't known here.
fn issuer(handle: &KeyHandle) -> Option<Issuer> {
    let octets = handle.as_bytes();
    match handle {
        KeyHandle::KeyID(_) => octets.try_into().ok().map(|id| Issuer::KeyId(KeyId(id))),
        KeyHandle::Fingerprint(_) => octets.try_into().ok().map(|id| Issuer::Fingerprint(Fingerprint::V4(id))),
    }
}

#[cfg(test)]
mod tests {
    use super::*;

    #[test]
    fn what_a_signature_says() {
        let hashed = [&[5, 2, 0, 0, 0, 100][..], &[5, 0x83, 0, 0, 0, 10], &[4, 28, b'a', b'\n', 0xff]].concat();
        let unhashed = [&[22, 33, 4][..], &[7; 20], &[9, 16], &[8; 8]].concat();
        let body = [
            &[4, 1, 22, 10, 0, hashed.len() as u8][..],
            &hashed,
            &[0, unhashed.len() as u8],
            &unhashed,
            &[0xab, 0xcd, 0, 1, 1],
        ]
        .concat();
        let said = Said::of(&body).unwrap();
        assert_eq!((said.version, said.kind, said.key_algorithm, said.hash_algorithm), (4, 1, 22, 10));
        assert_eq!((said.created, said.expires), (Some(100), Some(110)));
        assert_eq!(said.signers_user_id.as_deref(), Some(&b"a\n\xff"[..]));
        assert_eq!((said.fingerprint(), said.key_id()), (Some(Fingerprint::V4([7; 20])), Some(KeyId([7; 8]))));
        assert_eq!(Said::of(&body[..10]), None);
    }

    #[test]
    fn what_it_doesnt_say() {
        let many = [9, 16, 8, 8, 8, 8, 8, 8, 8, 8].repeat(20);
        let body = [&[4, 0, 22, 10, 0, 6, 5, 3, 0, 0, 0, 10, 0, many.len() as u8][..], &many, &[0, 0, 0]].concat();
        let said = Said::of(&body).unwrap();
        assert_eq!((said.created, said.expires, said.signers_user_id.as_ref()), (None, None, None));
        assert_eq!((said.issuers.len(), said.fingerprint()), (MOST_ISSUERS, None));
    }
}
