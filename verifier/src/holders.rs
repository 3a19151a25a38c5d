//! Which certificates have a key that may have signed data.

use std::collections::HashMap;

use sequoia_openpgp::parse::Parse;
use sequoia_openpgp::{Cert, KeyHandle, KeyID, Result};

use crate::certificate::Certificate;
use crate::fingerprint::{Fingerprint, KeyId};
use crate::keys;
use crate::said::MOST_ISSUERS;
use crate::signature::Issuer;

/// Certificates by the key IDs of their keys and subkeys.
pub struct Holders<'a> {
    certificates: &'a [Certificate<'a>],
    by_id: HashMap<KeyId, Vec<usize>>,
}

/// A key that a signature names, in its certificate.
pub struct Named<'a> {
    pub certificate: &'a Certificate<'a>,
    pub primary: Fingerprint,
    pub key: &'a [u8],
    pub fingerprint: Fingerprint,
}

impl<'a> Holders<'a> {
    pub fn of(certificates: &'a [Certificate<'a>]) -> Holders<'a> {
        let mut by_id: HashMap<KeyId, Vec<usize>> = HashMap::new();
        for (index, certificate) in certificates.iter().enumerate() {
            for fingerprint in certificate.keys().filter_map(Fingerprint::of_key) {
                let indices = by_id.entry(fingerprint.key_id()).or_default();
                if indices.last() != Some(&index) {
                    indices.push(index);
                }
            }
        }
        Holders { certificates, by_id }
    }

    /// The keys that these issuers name, each once.
    pub fn named(&self, issuers: &[Issuer]) -> Vec<Named<'a>> {
        let mut found: Vec<Named> = Vec::new();
        for issuer in issuers.iter().take(MOST_ISSUERS) {
            for index in self.by_id.get(&issuer.key_id()).into_iter().flatten() {
                self.add_named(&self.certificates[*index], issuer, &mut found);
            }
        }
        found
    }

    fn add_named(&self, certificate: &'a Certificate<'a>, issuer: &Issuer, found: &mut Vec<Named<'a>>) {
        let primary = match certificate.fingerprint() {
            Some(primary) => primary,
            None => return,
        };
        for key in certificate.keys() {
            let fingerprint = match Fingerprint::of_key(key) {
                Some(fingerprint) => fingerprint,
                None => continue,
            };
            let is_named = match issuer {
                Issuer::Fingerprint(named) => *named == fingerprint,
                Issuer::KeyId(named) => *named == fingerprint.key_id(),
            };
            let is_new = !found.iter().any(|one| (one.primary, one.fingerprint) == (primary, fingerprint));
            if is_named && is_new {
                found.push(Named { certificate, primary, key, fingerprint });
            }
        }
    }

    /// All copies of a certificate.
    pub fn copies(&self, primary: Fingerprint) -> Vec<&'a Certificate<'a>> {
        let indices = self.by_id.get(&primary.key_id()).into_iter().flatten();
        let certificates = indices.map(|index| &self.certificates[*index]);
        certificates.filter(|certificate| certificate.fingerprint() == Some(primary)).collect()
    }

    /// The certificates that have these keys, in the library's form. Copies of one certificate are merged, so that what
    /// only one of them says, such as a revocation, counts. Those with a key that is too large are left out.
    pub fn with_keys(&self, handles: &[KeyHandle]) -> Result<Vec<Cert>> {
        let mut indices: Vec<usize> = handles.iter().flat_map(|handle| self.indices(handle)).copied().collect();
        indices.sort_unstable();
        indices.dedup();
        indices.retain(|index| !keys::has_too_large(&self.certificates[*index]));
        let mut found: Vec<Cert> = Vec::new();
        for index in indices {
            let cert = Cert::from_bytes(&self.certificates[index].octets())?;
            match found.iter().position(|other| other.fingerprint() == cert.fingerprint()) {
                Some(place) => {
                    let other = found.swap_remove(place);
                    found.push(other.merge_public(cert)?);
                }
                None => found.push(cert),
            }
        }
        Ok(found)
    }

    fn indices(&self, handle: &KeyHandle) -> &[usize] {
        let id = KeyID::from(handle);
        let id: Option<[u8; 8]> = id.as_bytes().try_into().ok();
        id.and_then(|id| self.by_id.get(&KeyId(id))).map_or(&[][..], Vec::as_slice)
    }
}
