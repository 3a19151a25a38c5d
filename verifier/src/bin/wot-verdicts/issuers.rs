//! The keys that may have made a signature, by fingerprint and by key ID.

use std::collections::HashMap;

use tukyamid_verify::certificate::Certificate;
use tukyamid_verify::fingerprint::{Fingerprint, KeyId};
use tukyamid_verify::keys::{self, VerifyingKey};
use tukyamid_verify::signature::Issuer;

pub struct IssuerKey {
    pub fingerprint: Fingerprint,
    /// None if the key can't be read.
    pub key: Option<VerifyingKey>,
}

/// The primary keys of some certificates. Subkeys are none: they certify nothing for the engine.
#[derive(Default)]
pub struct Issuers {
    keys: Vec<IssuerKey>,
    by_fingerprint: HashMap<Fingerprint, usize>,
    by_id: HashMap<KeyId, Vec<usize>>,
}

impl Issuers {
    pub fn add(&mut self, certificate: &Certificate) {
        let fingerprint = match certificate.fingerprint() {
            Some(fingerprint) if !self.by_fingerprint.contains_key(&fingerprint) => fingerprint,
            _ => return,
        };
        let index = self.keys.len();
        self.by_id.entry(fingerprint.key_id()).or_default().push(index);
        self.by_fingerprint.insert(fingerprint, index);
        self.keys.push(IssuerKey { fingerprint, key: keys::verifying_key(certificate.key()) });
    }

    /// The keys that these issuers name, each once.
    pub fn named(&self, issuers: &[Issuer]) -> Vec<&IssuerKey> {
        let mut indices: Vec<usize> = Vec::new();
        for issuer in issuers {
            match issuer {
                Issuer::Fingerprint(fingerprint) => indices.extend(self.by_fingerprint.get(fingerprint)),
                Issuer::KeyId(id) => indices.extend(self.by_id.get(id).into_iter().flatten()),
            }
        }
        indices.sort_unstable();
        indices.dedup();
        indices.into_iter().map(|index| &self.keys[index]).collect()
    }
}
