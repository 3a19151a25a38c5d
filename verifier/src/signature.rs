//! The fields of a version 4 or version 6 signature (RFC 9580, section 5.2.3), as slices of its body.

use crate::fingerprint::{Fingerprint, KeyId};

/// The signature types (RFC 9580, section 5.2.1) that this program verifies.
pub mod kind {
    pub const BINARY: u8 = 0;
    pub const TEXT: u8 = 1;
    pub const CERTIFICATION_FIRST: u8 = 0x10;
    pub const CERTIFICATION_LAST: u8 = 0x13;
    pub const SUBKEY_BINDING: u8 = 0x18;
    pub const PRIMARY_KEY_BINDING: u8 = 0x19;
    pub const DIRECT_KEY: u8 = 0x1f;
    pub const KEY_REVOCATION: u8 = 0x20;
    pub const SUBKEY_REVOCATION: u8 = 0x28;
    pub const CERTIFICATION_REVOCATION: u8 = 0x30;
}

const ISSUER_KEY_ID: u8 = 16;
const ISSUER_FINGERPRINT: u8 = 33;
const EMBEDDED_SIGNATURE: u8 = 32;

pub struct Signature<'a> {
    pub version: u8,
    pub kind: u8,
    pub key_algorithm: u8,
    pub hash_algorithm: u8,
    /// From the version to the end of the hashed area: what the digest is of, besides what is signed.
    pub hashed: &'a [u8],
    /// What is hashed first; empty in version 4.
    pub salt: &'a [u8],
    /// The first two octets of the digest.
    pub digest_front: [u8; 2],
    pub material: &'a [u8],
    areas: [&'a [u8]; 2],
}

/// Who made a signature, by its own words.
#[derive(Clone, Debug, PartialEq, Eq)]
pub enum Issuer {
    Fingerprint(Fingerprint),
    KeyId(KeyId),
}

impl Issuer {
    pub fn key_id(&self) -> KeyId {
        match self {
            Issuer::Fingerprint(fingerprint) => fingerprint.key_id(),
            Issuer::KeyId(id) => *id,
        }
    }
}

impl<'a> Signature<'a> {
    /// None if the body isn't of version 4 or 6, or lacks a part. The areas needn't be lists of subpackets.
    pub fn read(body: &'a [u8]) -> Option<Signature<'a>> {
        let head = body.get(..4)?;
        let length_size = match head[0] {
            4 => 2,
            6 => 4,
            _ => return None,
        };
        let (hashed_area, hashed_end) = field(body, 4, length_size)?;
        let (unhashed_area, unhashed_end) = field(body, hashed_end, length_size)?;
        let front_end = unhashed_end + 2;
        let front = body.get(unhashed_end..front_end)?;
        let (salt, salt_end) = match head[0] {
            6 => field(body, front_end, 1)?,
            _ => (&[][..], front_end),
        };
        Some(Signature {
            version: head[0],
            kind: head[1],
            key_algorithm: head[2],
            hash_algorithm: head[3],
            hashed: &body[..hashed_end],
            salt,
            digest_front: [front[0], front[1]],
            material: &body[salt_end..],
            areas: [hashed_area, unhashed_area],
        })
    }

    /// The issuers that the signature names, in both areas.
    pub fn issuers(&self) -> Vec<Issuer> {
        self.areas.iter().flat_map(|area| Subpackets { rest: area }).filter_map(issuer).collect()
    }

    /// The subpackets of the hashed area, each from its type on; None if the area isn't a list of them.
    pub fn hashed_subpackets(&self) -> Option<Vec<&'a [u8]>> {
        let mut subpackets = Subpackets { rest: self.areas[0] };
        let found = subpackets.by_ref().collect();
        subpackets.rest.is_empty().then(|| found)
    }

    /// The bodies of the signatures embedded in this one, in both areas.
    pub fn embedded(&self) -> impl Iterator<Item = &'a [u8]> {
        let subpackets = self.areas.into_iter().flat_map(|area| Subpackets { rest: area });
        subpackets.filter_map(|subpacket| match subpacket.split_first() {
            Some((kind, body)) if kind & 0x7f == EMBEDDED_SIGNATURE => Some(body),
            _ => None,
        })
    }
}

/// The field whose length is at a place, in a number of octets, and the place after the field.
fn field(body: &[u8], at: usize, length_size: usize) -> Option<(&[u8], usize)> {
    let begin = at + length_size;
    let length = body.get(at..begin)?.iter().fold(0, |length, octet| (length << 8) + usize::from(*octet));
    let end = begin.checked_add(length)?;
    Some((body.get(begin..end)?, end))
}

fn issuer(subpacket: &[u8]) -> Option<Issuer> {
    let (kind, content) = subpacket.split_first()?;
    match (kind & 0x7f, content) {
        (ISSUER_KEY_ID, id) => Some(Issuer::KeyId(KeyId(id.try_into().ok()?))),
        (ISSUER_FINGERPRINT, [4, digest @ ..]) => Some(Issuer::Fingerprint(Fingerprint::V4(digest.try_into().ok()?))),
        (ISSUER_FINGERPRINT, [6, digest @ ..]) => Some(Issuer::Fingerprint(Fingerprint::V6(digest.try_into().ok()?))),
        _ => None,
    }
}

/// The subpackets of an area up to the first that has no reading, each from its type on.
struct Subpackets<'a> {
    rest: &'a [u8],
}

impl<'a> Iterator for Subpackets<'a> {
    type Item = &'a [u8];

    fn next(&mut self) -> Option<&'a [u8]> {
        let (at, length) = match *self.rest {
            [first @ 0..=191, ..] => (1, first as usize),
            [first @ 192..=254, second, ..] => (2, ((first as usize - 192) << 8) + second as usize + 192),
            [255, a, b, c, d, ..] => (5, u32::from_be_bytes([a, b, c, d]) as usize),
            _ => return None,
        };
        let rest = self.rest;
        let subpacket = rest.get(at..at + length)?;
        self.rest = &rest[at + length..];
        Some(subpacket)
    }
}

#[cfg(test)]
mod tests {
    use super::*;

    fn body(hashed: &[u8], unhashed: &[u8]) -> Vec<u8> {
        [
            &[4, 0x10, 22, 8, 0, hashed.len() as u8][..],
            hashed,
            &[0, unhashed.len() as u8],
            unhashed,
            &[0xab, 0xcd, 0, 1, 1],
        ]
        .concat()
    }

    #[test]
    fn issuers_are_read_from_both_areas() {
        let by_fingerprint = [&[22, 0x80 | 33, 4][..], &[7; 20]].concat();
        let hashed = [&[5, 2, 0, 0, 0, 1][..], &by_fingerprint].concat();
        let unhashed = [&[9, 16][..], &[8; 8]].concat();
        let body = body(&hashed, &unhashed);
        let signature = Signature::read(&body).unwrap();
        assert_eq!(signature.hashed, &body[..6 + hashed.len()]);
        assert_eq!((signature.digest_front, signature.material), ([0xab, 0xcd], &[0, 1, 1][..]));
        let named = [Issuer::Fingerprint(Fingerprint::V4([7; 20])), Issuer::KeyId(KeyId([8; 8]))];
        assert_eq!(signature.issuers(), named);
    }

    #[test]
    fn version_6_has_long_lengths_and_a_salt() {
        let by_fingerprint = [&[34, 33, 6][..], &[7; 32]].concat();
        let behind = [0, 0, 0, 0, 0xab, 0xcd, 2, 5, 6, 1, 1];
        let body = [&[6, 0x10, 27, 8, 0, 0, 0, 35][..], &by_fingerprint, &behind].concat();
        let signature = Signature::read(&body).unwrap();
        assert_eq!((signature.hashed, signature.salt), (&body[..43], &[5, 6][..]));
        assert_eq!((signature.digest_front, signature.material), ([0xab, 0xcd], &[1, 1][..]));
        assert_eq!(signature.issuers(), [Issuer::Fingerprint(Fingerprint::V6([7; 32]))]);
        assert!(Signature::read(&body[..body.len() - 2]).is_some());
        assert!(Signature::read(&body[..body.len() - 3]).is_none());
    }

    #[test]
    fn a_fault_in_an_area_ends_it_alone() {
        let unhashed = [&[9, 16][..], &[8; 8]].concat();
        let body = body(&[200], &unhashed);
        let issuers = Signature::read(&body).unwrap().issuers();
        assert_eq!(issuers, [Issuer::KeyId(KeyId([8; 8]))]);
    }

    #[test]
    fn other_versions_and_cut_bodies_have_no_fields() {
        let body = body(&[], &[]);
        let signature_end = body.len() - 3;
        assert!(Signature::read(&body[..signature_end]).is_some());
        assert!(Signature::read(&body[..signature_end - 1]).is_none());
        let mut older = body;
        older[0] = 3;
        assert!(Signature::read(&older).is_none());
    }
}
