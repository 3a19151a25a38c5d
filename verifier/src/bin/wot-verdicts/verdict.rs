//! The verdicts on the signatures of a certificate.

use std::collections::HashSet;
use std::time::Instant;

use tukyamid_verify::certificate::{Certificate, PlacedSignature};
use tukyamid_verify::fingerprint::Fingerprint;
use tukyamid_verify::number::{number_of, Number, Place};
use tukyamid_verify::signature::{kind, Issuer, Signature};
use tukyamid_verify::verify::{digests, verify, Failure};

use crate::issuers::{IssuerKey, Issuers};
use crate::stats::{thread_seconds, Counts};

#[derive(Clone, Debug, PartialEq, Eq)]
pub enum Verdict {
    Good(Fingerprint),
    Bad,
}

/// The processor time that the signatures of one certificate may take: seconds. All those of Debian's keyring take 10.
const CERTIFICATE_SECONDS: f64 = 10.0;

pub struct Verifier {
    pub issuers: Issuers,
    /// Whether signatures on attributes and subkeys are verified too.
    pub all: bool,
    /// The only numbers that get a verdict, if there are such.
    pub pending: Option<HashSet<Number>>,
    /// When verifying ends. What isn't verified by then gets no verdict.
    pub end: Option<Instant>,
}

#[derive(Default)]
pub struct CertificateVerdicts {
    pub verdicts: Vec<(Number, Verdict)>,
    pub counts: Counts,
}

impl Verifier {
    pub fn certificate(&self, certificate: &Certificate) -> CertificateVerdicts {
        let mut found = CertificateVerdicts::default();
        let own = match certificate.fingerprint() {
            Some(fingerprint) => [Issuer::Fingerprint(fingerprint)],
            None => {
                found.counts.other += certificate.signatures().len() as u64;
                return found;
            }
        };
        let mut seen = HashSet::new();
        for placed in certificate.signatures() {
            let number = number_of(certificate.key(), placed.place, placed.component, placed.body);
            let is_asked = self.pending.as_ref().map_or(true, |pending| pending.contains(&number));
            if !is_asked || !seen.insert(number) {
                found.counts.other += 1;
                continue;
            }
            if self.is_late(&found.counts) {
                found.counts.late += 1;
                continue;
            }
            let verdict = self.signature(certificate.key(), &own, &placed, &mut found.counts);
            found.verdicts.extend(verdict.map(|verdict| (number, verdict)));
        }
        found
    }

    /// Whether the time of all, or that of a certificate with these counts, is up.
    fn is_late(&self, counts: &Counts) -> bool {
        counts.verifying_seconds > CERTIFICATE_SECONDS || self.end.map_or(false, |end| Instant::now() >= end)
    }

    /// The verdict on a signature, counted; None if nothing can be said.
    fn signature(
        &self,
        key: &[u8],
        own: &[Issuer; 1],
        placed: &PlacedSignature,
        counts: &mut Counts,
    ) -> Option<Verdict> {
        let signature = match Signature::read(placed.body) {
            Some(signature) if self.has_effect(placed.place, signature.kind) => signature,
            _ => {
                counts.other += 1;
                return None;
            }
        };
        let named = signature.issuers();
        let is_named = !named.is_empty();
        // A signature that names nobody is tried with the certificate's own key.
        let issuers = self.issuers.named(if is_named { &named[..] } else { own });
        if issuers.is_empty() {
            counts.absent += 1;
            return None;
        }
        let before = thread_seconds();
        let maker = maker(&issuers, key, placed, &signature);
        counts.verifying_seconds += thread_seconds() - before;
        match maker {
            Ok(issuer) => {
                counts.good += 1;
                Some(Verdict::Good(issuer.fingerprint))
            }
            Err(Failure::Wrong) if is_named => {
                counts.bad += 1;
                Some(Verdict::Bad)
            }
            Err(Failure::Wrong) => {
                counts.absent += 1;
                None
            }
            Err(Failure::Unsupported) => {
                counts.unsupported += 1;
                None
            }
        }
    }

    /// Whether a signature of this type has an effect at its place, and is asked for.
    fn has_effect(&self, place: Place, kind: u8) -> bool {
        let certifies =
            matches!(kind, kind::CERTIFICATION_FIRST..=kind::CERTIFICATION_LAST | kind::CERTIFICATION_REVOCATION);
        match place {
            Place::Key => {
                matches!(kind, kind::DIRECT_KEY | kind::KEY_REVOCATION | kind::CERTIFICATION_REVOCATION)
            }
            Place::UserId => certifies,
            Place::Attribute => self.all && certifies,
            Place::Subkey => self.all && matches!(kind, kind::SUBKEY_BINDING | kind::SUBKEY_REVOCATION),
        }
    }
}

/// Which of these keys made the signature.
fn maker<'i>(
    issuers: &[&'i IssuerKey],
    key: &[u8],
    placed: &PlacedSignature,
    signature: &Signature,
) -> Result<&'i IssuerKey, Failure> {
    let mut failure = Failure::Wrong;
    for digest in digests(key, placed, signature)? {
        for issuer in issuers {
            let verified = match &issuer.key {
                Some(key) => verify(key, signature, &digest),
                None => Err(Failure::Unsupported),
            };
            match verified {
                Ok(()) => return Ok(issuer),
                Err(Failure::Wrong) => {}
                Err(Failure::Unsupported) => failure = Failure::Unsupported,
            }
        }
    }
    Err(failure)
}
