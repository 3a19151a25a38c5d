//! What the key of a certificate says of itself, of its user IDs and of its subkeys: its own signatures, verified.

use std::collections::HashMap;

use crate::certificate::{Certificate, PlacedSignature};
use crate::facts::Facts;
use crate::fingerprint::Fingerprint;
use crate::hasher::has_right_salt;
use crate::keys::{verifying_key, VerifyingKey};
use crate::number::Place;
use crate::signature::{kind, Issuer, Signature};
use crate::verify::{digests, verify};

/// One of a key's own signatures that binds: a certification, a direct key signature or a subkey's binding.
pub struct Own<'a> {
    pub place: Place,
    pub component: &'a [u8],
    pub facts: Facts,
    /// When the subkey that it is on agreed to be bound; None if it didn't, or needn't.
    pub agreed: Option<Facts>,
}

/// A certificate with all that its copies say.
pub struct Bound<'a> {
    pub key: &'a [u8],
    pub signatures: Vec<Own<'a>>,
    /// By what they revoke.
    pub revocations: HashMap<(Place, &'a [u8]), Vec<Facts>>,
}

/// Whether signatures by a hash algorithm count: SHA-2 and SHA-3 do.
pub fn is_hash_accepted(algorithm: u8) -> bool {
    matches!(algorithm, 8..=12 | 14)
}

/// The same for a key's own signatures by the engine's policy (docs/PROFILE.md), which also admits SHA-1 and RIPEMD-160
/// on those that were created before 1 February 2013.
pub fn is_hash_admitted(algorithm: u8, created: u32) -> bool {
    is_hash_accepted(algorithm) || (matches!(algorithm, 2 | 3) && created < 1_359_676_800)
}

impl<'a> Bound<'a> {
    /// Of copies of one certificate.
    pub fn of(copies: &[&'a Certificate<'a>]) -> Option<Bound<'a>> {
        Bound::with_hashes(copies, |algorithm, _| is_hash_accepted(algorithm))
    }

    /// `admits` says whether a hash algorithm counts on a signature of this creation time.
    pub fn with_hashes(copies: &[&'a Certificate<'a>], admits: fn(u8, u32) -> bool) -> Option<Bound<'a>> {
        let key = copies.first()?.key();
        let fingerprint = Fingerprint::of_key(key)?;
        let maker = Maker { body: key, fingerprint, key: verifying_key(key)?, admits };
        let mut bound = Bound { key, signatures: Vec::new(), revocations: HashMap::new() };
        for placed in copies.iter().flat_map(|copy| copy.signatures()) {
            bound.add(&maker, placed);
        }
        Some(bound)
    }

    /// Adds a signature that the key made, unless it doesn't count.
    fn add(&mut self, maker: &Maker, placed: PlacedSignature<'a>) {
        let is_own = |one: &Signature| is_of_place(one.kind, placed.place) && maker.is_named(one);
        let signature = match Signature::read(placed.body).filter(is_own) {
            Some(signature) => signature,
            None => return,
        };
        let facts = match maker.verified(&maker.key, &placed, &signature) {
            Some(facts) => facts,
            None => return,
        };
        let PlacedSignature { place, component, .. } = placed;
        if is_revocation(signature.kind) {
            self.revocations.entry((place, component)).or_default().push(facts);
        } else {
            let agreed = if place == Place::Subkey { maker.agreed(&placed, &signature) } else { None };
            self.signatures.push(Own { place, component, facts, agreed });
        }
    }
}

/// Who has to have made a key's own signatures.
struct Maker<'a> {
    body: &'a [u8],
    fingerprint: Fingerprint,
    key: VerifyingKey,
    admits: fn(u8, u32) -> bool,
}

impl Maker<'_> {
    /// Whether the signature names this key, or nobody.
    fn is_named(&self, signature: &Signature) -> bool {
        let named = signature.issuers();
        let is_this = |issuer: &Issuer| match issuer {
            Issuer::Fingerprint(fingerprint) => *fingerprint == self.fingerprint,
            Issuer::KeyId(id) => *id == self.fingerprint.key_id(),
        };
        named.is_empty() || named.iter().any(is_this)
    }

    /// What a signature says, if this key made it and it counts.
    fn verified(&self, key: &VerifyingKey, placed: &PlacedSignature, signature: &Signature) -> Option<Facts> {
        // A revocation by a weak hash is heeded rather than not.
        let facts = Facts::of(&signature.hashed_subpackets()?).ok()?;
        let is_fit = signature.version == self.body[0]
            && has_right_salt(signature)
            && (is_revocation(signature.kind) || (self.admits)(signature.hash_algorithm, facts.created));
        if !is_fit {
            return None;
        }
        let digests = digests(self.body, placed, signature).ok()?;
        digests.iter().any(|digest| verify(key, signature, digest).is_ok()).then(|| facts)
    }

    /// The signature by which a subkey that signs says that it belongs to this key (RFC 9580, section 5.2.1.9).
    fn agreed(&self, placed: &PlacedSignature, binding: &Signature) -> Option<Facts> {
        let subkey = verifying_key(placed.component)?;
        // One is usual. More may be junk, and each costs time.
        binding.embedded().take(4).find_map(|body| {
            let signature = Signature::read(body).filter(|one| one.kind == kind::PRIMARY_KEY_BINDING)?;
            self.verified(&subkey, placed, &signature)
        })
    }
}

fn is_revocation(kind: u8) -> bool {
    matches!(kind, kind::KEY_REVOCATION | kind::SUBKEY_REVOCATION | kind::CERTIFICATION_REVOCATION)
}

fn is_of_place(kind: u8, place: Place) -> bool {
    match place {
        Place::Key => matches!(kind, kind::DIRECT_KEY | kind::KEY_REVOCATION),
        Place::UserId => matches!(
            kind,
            kind::CERTIFICATION_FIRST..=kind::CERTIFICATION_LAST | kind::CERTIFICATION_REVOCATION
        ),
        Place::Subkey => matches!(kind, kind::SUBKEY_BINDING | kind::SUBKEY_REVOCATION),
        Place::Attribute => false,
    }
}
