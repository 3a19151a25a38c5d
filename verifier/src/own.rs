//! Signatures on data that this program verifies by itself, since the library can't: those of version 6, those with a
//! hash algorithm that the library hasn't, and those by keys of RFC 9580's new algorithms or of a curve that it hasn't,
//! or by a subkey of such a key.

use std::collections::HashMap;

use crate::bound::{is_hash_accepted, Bound};
use crate::digesting::Digesting;
use crate::facts::{Facts, Unfit};
use crate::finding::{Finding, Word};
use crate::fingerprint::Fingerprint;
use crate::hasher::{has_right_salt, is_of_library};
use crate::holders::{Holders, Named};
use crate::keys::{self, verifying_key, VerifyingKey, ED25519, ED448};
use crate::signature::{kind, Signature};
use crate::verify::{verify, Failure};

/// How far a clock may be behind another one: seconds.
const CLOCKS_DIFFER: u64 = 30 * 60;
/// Each of them is a pass over the data, so that a file of very many would take for ever.
const MOST: usize = 64;

/// Verifies at one time.
pub struct OwnVerifier<'h> {
    holders: &'h Holders<'h>,
    time: u64,
    /// By the fingerprint of the certificate.
    bound: HashMap<Fingerprint, Option<Bound<'h>>>,
    waiting: usize,
}

/// A signature, before its data are read.
pub enum Begun<'s> {
    Decided(Finding),
    Waiting(Box<Waiting<'s>>),
}

/// A signature that is decided by its data.
pub struct Waiting<'s> {
    signature: Signature<'s>,
    created: u32,
    digesting: Digesting,
    candidates: Vec<Candidate>,
}

/// A key that may have made a signature.
struct Candidate {
    certificate: Fingerprint,
    fingerprint: Fingerprint,
    key: VerifyingKey,
}

impl<'h> OwnVerifier<'h> {
    pub fn new(holders: &'h Holders<'h>, time: u64) -> OwnVerifier<'h> {
        OwnVerifier { holders, time, bound: HashMap::new(), waiting: 0 }
    }

    /// Whether the library can't verify a signature, by its version, its algorithms or a key that it names. Of a hash
    /// algorithm that it hasn't it makes no error: it panics.
    pub fn is_mine(holders: &Holders, body: &[u8]) -> bool {
        let signature = match Signature::read(body) {
            Some(signature) => signature,
            None => return false,
        };
        let is_foreign = |key: &[u8]| key[0] == 6 || verifying_key(key).map_or(false, |key| !key.is_of_library());
        signature.version == 6
            || matches!(signature.key_algorithm, ED25519 | ED448)
            || !is_of_library(signature.hash_algorithm)
            || holders
                .named(&signature.issuers())
                .iter()
                .any(|named| {
                    let certificate = named.certificate;
                    is_foreign(named.key) || is_foreign(certificate.key()) || keys::has_too_large(certificate)
                })
    }

    /// What can be said of a signature before the data are there.
    pub fn begin<'s>(&mut self, body: &'s [u8]) -> Begun<'s> {
        let signature = match Signature::read(body) {
            Some(signature) => signature,
            None => return Begun::Decided(Finding::nothing(Word::Malformed).since("a part of it is missing")),
        };
        match self.prepared(&signature) {
            Err(finding) => Begun::Decided(finding),
            Ok((created, digesting, candidates)) => {
                self.waiting += 1;
                Begun::Waiting(Box::new(Waiting { signature, created, digesting, candidates }))
            }
        }
    }

    fn prepared(&mut self, signature: &Signature) -> Result<(u32, Digesting, Vec<Candidate>), Finding> {
        let facts = facts_of(signature)?;
        let candidates = self.candidates(signature, facts.created)?;
        let first = &candidates[0];
        let refused = |word, why| {
            let finding = Finding::on(word, signature, Some(facts.created)).since(why);
            finding.by_key(first.certificate, first.fingerprint)
        };
        if !facts.is_live(self.time) && !facts.is_live(self.time + CLOCKS_DIFFER) {
            return Err(refused(Word::Refused, "it isn't valid at this time"));
        }
        if !matches!(signature.kind, kind::BINARY | kind::TEXT) {
            return Err(refused(Word::Bad, "it isn't a signature on data"));
        }
        if !has_right_salt(signature) {
            return Err(refused(Word::Bad, "its salt doesn't have the size that its hash algorithm requires"));
        }
        if self.waiting == MOST {
            return Err(refused(Word::Refused, "too many signatures on one file"));
        }
        let digesting = Digesting::new(signature);
        let digesting = digesting.ok_or_else(|| refused(Word::Unsupported, "its hash algorithm isn't known"))?;
        Ok((facts.created, digesting, candidates))
    }

    /// The keys that a signature names and that could make it; there is one at least.
    fn candidates(&mut self, signature: &Signature, created: u32) -> Result<Vec<Candidate>, Finding> {
        let mut candidates = Vec::new();
        let mut finding = Finding::on(Word::Absent, signature, Some(created));
        for named in &self.holders.named(&signature.issuers()) {
            match self.usable(signature, named, u64::from(created)) {
                Ok(key) => {
                    candidates.push(Candidate { certificate: named.primary, fingerprint: named.fingerprint, key });
                }
                Err((word, why)) => {
                    finding = Finding::on(word, signature, Some(created)).since(why);
                    finding = finding.by_key(named.primary, named.fingerprint);
                }
            }
        }
        if candidates.is_empty() { Err(finding) } else { Ok(candidates) }
    }

    /// The key, if it could make the signature at that time.
    fn usable(
        &mut self,
        signature: &Signature,
        named: &Named<'h>,
        time: u64,
    ) -> Result<VerifyingKey, (Word, &'static str)> {
        if keys::has_too_large(named.certificate) {
            return Err((Word::Refused, "a key of its certificate is too large"));
        }
        let holders = self.holders;
        let bound = self.bound.entry(named.primary).or_insert_with(|| Bound::of(&holders.copies(named.primary)));
        let bound = bound.as_ref().ok_or((Word::Unsupported, "the algorithm of its certificate's key isn't known"))?;
        bound.could_sign(named.key, time).map_err(|why| (Word::Refused, why))?;
        if signature.version != named.key[0] {
            return Err((Word::Refused, "its version isn't that of its key"));
        }
        if keys::is_short(named.key) {
            return Err((Word::Refused, "its key is too short"));
        }
        verifying_key(named.key).ok_or((Word::Unsupported, "the algorithm of its key isn't known"))
    }
}

impl Waiting<'_> {
    pub fn update(&mut self, octets: &[u8]) {
        self.digesting.update(octets);
    }

    /// What the signature comes to, after all data.
    pub fn finding(self) -> Finding {
        let Waiting { signature, created, digesting, candidates } = self;
        let found = |word, by: &Candidate, why: Option<&str>| {
            let finding = Finding::on(word, &signature, Some(created)).by_key(by.certificate, by.fingerprint);
            match why {
                Some(why) => finding.since(why),
                None => finding,
            }
        };
        let digest = digesting.digest(&signature).unwrap_or_default();
        let mut word = Word::Bad;
        for candidate in &candidates {
            match verify(&candidate.key, &signature, &digest) {
                Ok(()) if is_hash_accepted(signature.hash_algorithm) => return found(Word::Good, candidate, None),
                Ok(()) => return found(Word::Refused, candidate, Some("its hash algorithm is too weak")),
                Err(Failure::Unsupported) => word = Word::Unsupported,
                Err(Failure::Wrong) => {}
            }
        }
        let why = match word {
            Word::Unsupported => "the algorithm of its key isn't known",
            _ => "the key didn't make it over these data",
        };
        found(word, &candidates[0], Some(why))
    }
}

/// What a signature says; an Err if it can't be verified.
fn facts_of(signature: &Signature) -> Result<Facts, Finding> {
    let subpackets = signature.hashed_subpackets();
    let facts = subpackets.map_or(Err(Unfit::Malformed), |subpackets| Facts::of(&subpackets));
    facts.map_err(|unfit| match unfit {
        Unfit::Malformed => Finding::on(Word::Malformed, signature, None).since("its subpackets can't be read"),
        Unfit::Critical(kind) => {
            let finding = Finding::on(Word::Refused, signature, None);
            finding.since(&format!("its critical subpacket of type {kind} isn't known"))
        }
    })
}
