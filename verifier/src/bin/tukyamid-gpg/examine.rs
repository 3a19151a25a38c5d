//! What each signature on data comes to: whether a key made it, and the standing of that key now.

use std::collections::HashMap;

use tukyamid_verify::bound::{is_hash_accepted, is_hash_admitted, Bound};
use tukyamid_verify::digesting::Digesting;
use tukyamid_verify::facts::{Facts, Unfit};
use tukyamid_verify::fingerprint::Fingerprint;
use tukyamid_verify::hasher::has_right_salt;
use tukyamid_verify::holders::{Holders, Named};
use tukyamid_verify::keys::{is_short, verifying_key};
use tukyamid_verify::said::Said;
use tukyamid_verify::signature::{kind, Issuer, Signature};
use tukyamid_verify::verify::{verify, Failure};

/// How far a clock may be behind another one: seconds.
const CLOCKS_DIFFER: u64 = 30 * 60;

/// The key that made a signature, or that should have.
#[derive(Clone)]
pub struct By {
    pub certificate: Fingerprint,
    pub key: Fingerprint,
    /// The certificate's user IDs, the primary one first.
    pub user_ids: Vec<Vec<u8>>,
}

/// Why a signature isn't taken for one, in gpg's numbers of errors.
#[derive(Clone, Copy, Debug, PartialEq, Eq)]
pub enum Code {
    General = 1,
    KeyAlgorithm = 4,
    HashAlgorithm = 5,
    NoKey = 9,
    UnusableKey = 53,
    TimeConflict = 58,
}

/// The standing of a key that made a signature, now.
#[derive(Clone, Copy, Debug, PartialEq, Eq)]
pub enum Standing {
    Usable,
    /// Since this time.
    Expired(u64),
    Revoked,
}

pub enum Verdict {
    Made(By, Standing),
    Bad(By),
    /// Nothing can be said, or nothing good.
    Refused(Code, String),
}

pub struct Found {
    pub said: Said,
    pub verdict: Verdict,
}

/// What a signature says of itself: nothing if it can't be read.
pub fn said_of(body: &[u8]) -> Said {
    Said::of(body).unwrap_or(Said {
        version: 0,
        kind: 0,
        key_algorithm: 0,
        hash_algorithm: 0,
        created: None,
        expires: None,
        issuers: Vec::new(),
        signers_user_id: None,
        id: None,
    })
}

/// Those by which the key of a signature is sought: fingerprints if it names any.
pub fn sought_for(said: &Said) -> Vec<Issuer> {
    match said.fingerprint() {
        Some(fingerprint) => vec![Issuer::Fingerprint(fingerprint)],
        None => said.issuers.clone(),
    }
}

/// The signatures on some data, which are fed piece by piece.
pub struct Examination<'s, 'h> {
    holders: &'h Holders<'h>,
    now: u64,
    bodies: &'s [Vec<u8>],
    /// One for each way to digest the data, by hash algorithm, signature type and salt.
    digests: HashMap<(u8, bool, &'s [u8]), Digesting>,
    bound: HashMap<Fingerprint, Option<Bound<'h>>>,
}

impl<'s, 'h> Examination<'s, 'h> {
    pub fn new(bodies: &'s [Vec<u8>], holders: &'h Holders<'h>, now: u32) -> Examination<'s, 'h> {
        let mut digests = HashMap::new();
        for signature in bodies.iter().filter_map(|body| Signature::read(body)) {
            if !holders.named(&signature.issuers()).is_empty() && has_right_salt(&signature) {
                if let Some(digesting) = Digesting::new(&signature) {
                    digests.entry(way(&signature)).or_insert(digesting);
                }
            }
        }
        Examination { holders, now: now.into(), bodies, digests, bound: HashMap::new() }
    }

    /// Takes a piece of the data.
    pub fn update(&mut self, octets: &[u8]) {
        self.digests.values_mut().for_each(|digesting| digesting.update(octets));
    }

    /// What each signature comes to, in their order, after all data.
    pub fn finish(mut self) -> Vec<Found> {
        let bodies = self.bodies;
        bodies.iter().map(|body| Found { said: said_of(body), verdict: self.verdict(body) }).collect()
    }

    fn verdict(&mut self, body: &[u8]) -> Verdict {
        match Signature::read(body) {
            Some(signature) => self.verdict_on(&signature).unwrap_or_else(|(code, why)| Verdict::Refused(code, why)),
            None => Verdict::Refused(Code::General, "it isn't a signature of version 4 or 6".to_owned()),
        }
    }

    fn verdict_on(&mut self, signature: &Signature) -> Result<Verdict, (Code, String)> {
        let refused = |code: Code, why: &str| Err((code, why.to_owned()));
        let facts = facts_of(signature)?;
        let named = self.holders.named(&signature.issuers());
        if named.is_empty() {
            return refused(Code::NoKey, "no public key");
        }
        let digesting = match self.digests.get(&way(signature)) {
            Some(digesting) => digesting.clone(),
            None => {
                return refused(Code::HashAlgorithm, "its hash algorithm isn't known, or its salt has another size")
            }
        };
        let digest = digesting.digest(signature).ok_or((Code::General, "it can't be digested".to_owned()))?;
        if !matches!(signature.kind, kind::BINARY | kind::TEXT) {
            return refused(Code::General, "it isn't a signature on data");
        }
        let mut refusal = None;
        let mut found: Option<(Standing, By)> = None;
        let mut is_unknown = false;
        for one in &named {
            match made_by(one, signature, &digest) {
                Err(Failure::Wrong) => continue,
                Err(Failure::Unsupported) => {
                    is_unknown = true;
                    continue;
                }
                Ok(()) => {}
            }
            match self.standing(one, signature, &facts) {
                Ok(standing) if found.as_ref().map_or(true, |(best, _)| rank(standing) < rank(*best)) => {
                    found = Some((standing, self.by(one)));
                }
                Ok(_) => {}
                Err(why) => refusal = Some(why),
            }
        }
        match (found, refusal, is_unknown) {
            (Some((standing, by)), _, _) => Ok(Verdict::Made(by, standing)),
            (None, Some(why), _) => Err(why),
            (None, None, true) => refused(Code::KeyAlgorithm, "the algorithm of its key isn't known"),
            (None, None, false) => Ok(Verdict::Bad(self.by(&named[0]))),
        }
    }

    /// The standing of the key that made the signature, or why it couldn't make it.
    fn standing(&mut self, one: &Named<'h>, signature: &Signature, facts: &Facts) -> Result<Standing, (Code, String)> {
        let unusable = |why: &str| (Code::UnusableKey, why.to_owned());
        let (signed, now) = (u64::from(facts.created), self.now);
        if !is_hash_accepted(signature.hash_algorithm) {
            return Err((Code::HashAlgorithm, "its hash algorithm is too weak".to_owned()));
        }
        if signed > now + CLOCKS_DIFFER {
            return Err((Code::General, "it was created in the future".to_owned()));
        }
        if signed < created(one.key) {
            return Err((Code::TimeConflict, "it is older than its key".to_owned()));
        }
        if signature.version != one.key[0] {
            return Err(unusable("its version isn't that of its key"));
        }
        if is_short(one.key) {
            return Err(unusable("its key has fewer than 2048 bits"));
        }
        let holders = self.holders;
        let bound = self.bound.entry(one.primary).or_insert_with(|| bound_of(holders, one.primary));
        let bound = bound.as_ref().ok_or_else(|| unusable("the algorithm of its certificate's key isn't known"))?;
        // A keyring may have the newest bindings alone.
        let could_sign = bound.could_sign(one.key, signed).or_else(|why| {
            bound.could_sign(one.key, now).map_err(|_| why)
        });
        if bound.is_meant_for_signing(one.key) && bound.has_revoked(one.key, now) {
            return Ok(Standing::Revoked);
        }
        match bound.end(one.key, now) {
            Some(end) if end <= now && bound.is_meant_for_signing(one.key) => Ok(Standing::Expired(end)),
            _ => could_sign.map(|()| Standing::Usable).map_err(unusable),
        }
    }

    fn by(&mut self, one: &Named<'h>) -> By {
        let copies = self.holders.copies(one.primary);
        let mut user_ids: Vec<Vec<u8>> = Vec::new();
        for user_id in copies.iter().flat_map(|copy| copy.user_ids()) {
            if !user_ids.iter().any(|known| known == user_id) {
                user_ids.push(user_id.to_vec());
            }
        }
        let holders = self.holders;
        let bound = self.bound.entry(one.primary).or_insert_with(|| bound_of(holders, one.primary));
        let primary = bound.as_ref().and_then(|bound| bound.primary_user_id(self.now)).map(|own| own.component);
        if let Some(place) = user_ids.iter().position(|user_id| Some(user_id.as_slice()) == primary) {
            user_ids[..=place].rotate_right(1);
        }
        By { certificate: one.primary, key: one.fingerprint, user_ids }
    }
}

fn bound_of<'h>(holders: &'h Holders<'h>, primary: Fingerprint) -> Option<Bound<'h>> {
    Bound::with_hashes(&holders.copies(primary), is_hash_admitted)
}

/// How its data are digested.
fn way<'s>(signature: &Signature<'s>) -> (u8, bool, &'s [u8]) {
    (signature.hash_algorithm, signature.kind == kind::TEXT, signature.salt)
}

fn made_by(one: &Named, signature: &Signature, digest: &[u8]) -> Result<(), Failure> {
    verifying_key(one.key).map_or(Err(Failure::Unsupported), |key| verify(&key, signature, digest))
}

/// What counts more comes first: a key may be in several certificates, of which anybody may make one.
fn rank(standing: Standing) -> u8 {
    match standing {
        Standing::Usable => 0,
        Standing::Expired(_) => 1,
        Standing::Revoked => 2,
    }
}

fn created(key: &[u8]) -> u64 {
    key.get(1..5).map_or(u64::MAX, |octets| octets.iter().fold(0, |time, octet| (time << 8) + u64::from(*octet)))
}

fn facts_of(signature: &Signature) -> Result<Facts, (Code, String)> {
    let subpackets = signature.hashed_subpackets();
    let facts = subpackets.map_or(Err(Unfit::Malformed), |subpackets| Facts::of(&subpackets));
    facts.map_err(|unfit| match unfit {
        Unfit::Malformed => (Code::General, "its subpackets can't be read".to_owned()),
        Unfit::Critical(kind) => (Code::General, format!("its critical subpacket of type {kind} isn't known")),
    })
}
