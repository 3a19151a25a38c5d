//! What a signature on data comes to.

use std::fmt;
use std::time::UNIX_EPOCH;

use sequoia_openpgp as openpgp;

use openpgp::cert::amalgamation::ValidAmalgamation;
use openpgp::packet::Signature;
use openpgp::parse::stream::{VerificationError, VerificationResult};
use openpgp::Cert;

use crate::fingerprint::Fingerprint;
use crate::said::Said;
use crate::signature::{Issuer, Signature as Own};

#[derive(Clone, Copy, Debug, PartialEq, Eq)]
pub enum Word {
    /// A key made it over this data, and could at that time.
    Good,
    /// The key that it names didn't make it over this data.
    Bad,
    /// No key that it names is there.
    Absent,
    /// Its key, its dates or its hash algorithm aren't acceptable: expired, revoked, not bound, not for signing, weak.
    Refused,
    /// Its version or one of its algorithms isn't known to the library.
    Unsupported,
    /// It, or what holds it, isn't well-formed.
    Malformed,
}

impl fmt::Display for Word {
    fn fmt(&self, f: &mut fmt::Formatter<'_>) -> fmt::Result {
        f.write_str(match self {
            Word::Good => "good",
            Word::Bad => "bad",
            Word::Absent => "absent",
            Word::Refused => "refused",
            Word::Unsupported => "unsupported",
            Word::Malformed => "malformed",
        })
    }
}

/// A signature, and what it comes to. What isn't known is None. As text, a line of the output of `wot-verdicts`.
#[derive(Clone, Debug)]
pub struct Finding {
    pub word: Word,
    /// What the signature says of itself; None if it can't be read.
    pub said: Option<Said>,
    /// When it was created, in seconds since 1970, as whoever verified it has it.
    pub made: Option<u64>,
    /// The fingerprint of the certificate, in lower-case digits.
    pub certificate: Option<String>,
    /// The fingerprint of the key or subkey that made it. If no key of the input did, it is the one that it names, and
    /// a key ID if it names no fingerprint.
    pub key: Option<String>,
    /// Why it isn't good, by the library's or this program's words: one line, which may quote what was read.
    pub why: Option<String>,
}

impl Finding {
    pub fn of(result: VerificationResult) -> Finding {
        use VerificationError::{BadKey, BadSignature, MalformedSignature, MissingKey, UnboundKey};
        match result {
            Ok(good) => Finding::new(Word::Good, good.sig).by(good.ka.cert().cert(), &good.ka.fingerprint()),
            Err(BadSignature { sig, ka, error }) => {
                Finding::new(word_for(sig, &error), sig).by(ka.cert().cert(), &ka.fingerprint()).because(&error)
            }
            Err(BadKey { sig, ka, error }) => {
                Finding::new(Word::Refused, sig).by(ka.cert().cert(), &ka.fingerprint()).because(&error)
            }
            Err(UnboundKey { sig, cert, error }) => {
                let finding = Finding::new(Word::Refused, sig).because(&error);
                Finding { certificate: Some(format!("{:x}", cert.fingerprint())), ..finding }
            }
            Err(MissingKey { sig }) => Finding::new(Word::Absent, sig),
            Err(MalformedSignature { sig, error }) => Finding::new(Word::Malformed, sig).because(&error),
        }
    }

    /// Of a signature that this program verifies by itself.
    pub fn on(word: Word, signature: &Own, made: Option<u32>) -> Finding {
        let key = signature.issuers().first().map(|issuer| match issuer {
            Issuer::Fingerprint(fingerprint) => fingerprint.to_string(),
            Issuer::KeyId(id) => id.to_string(),
        });
        let said = Some(Said::from(signature));
        Finding { word, said, made: made.map(u64::from), certificate: None, key, why: None }
    }

    pub fn by_key(self, certificate: Fingerprint, key: Fingerprint) -> Finding {
        Finding { certificate: Some(certificate.to_string()), key: Some(key.to_string()), ..self }
    }

    pub fn since(self, why: &str) -> Finding {
        // What the library says may quote what it read.
        Finding { why: Some(why.replace(|character: char| character.is_control(), " ")), ..self }
    }

    /// Of what can't be read as a signature.
    pub fn unread(word: Word, why: &anyhow::Error) -> Finding {
        Finding::nothing(word).because(why)
    }

    pub fn nothing(word: Word) -> Finding {
        Finding { word, said: None, made: None, certificate: None, key: None, why: None }
    }

    fn new(word: Word, sig: &Signature) -> Finding {
        let made = sig.signature_creation_time().and_then(|time| time.duration_since(UNIX_EPOCH).ok());
        Finding {
            word,
            said: Some(Said::from(sig)),
            made: made.map(|since| since.as_secs()),
            certificate: None,
            key: sig.get_issuers().first().map(|issuer| format!("{issuer:x}")),
            why: None,
        }
    }

    fn by(self, cert: &Cert, key: &openpgp::Fingerprint) -> Finding {
        Finding { certificate: Some(format!("{:x}", cert.fingerprint())), key: Some(format!("{key:x}")), ..self }
    }

    fn because(self, error: &anyhow::Error) -> Finding {
        self.since(&format!("{error:#}"))
    }
}

/// What it means that a key's signature didn't do.
fn word_for(sig: &Signature, error: &anyhow::Error) -> Word {
    use openpgp::Error::{
        Expired, NotYetLive, PolicyViolation, UnsupportedEllipticCurve, UnsupportedPublicKeyAlgorithm,
    };
    match error.downcast_ref() {
        Some(Expired(_) | NotYetLive(_) | PolicyViolation(..)) => Word::Refused,
        Some(UnsupportedEllipticCurve(_) | UnsupportedPublicKeyAlgorithm(_)) => Word::Unsupported,
        _ if !sig.hash_algo().is_supported() => Word::Unsupported,
        _ => Word::Bad,
    }
}

/// `signature WORD MADE TYPE HASH CERTIFICATE KEY WHY`, with `-` for what isn't known. WHY is the rest of the line.
impl fmt::Display for Finding {
    fn fmt(&self, f: &mut fmt::Formatter<'_>) -> fmt::Result {
        let Finding { word, said, made, certificate, key, why } = self;
        let or_dash = |text: &Option<String>| text.clone().unwrap_or_else(|| "-".to_owned());
        let number = |number: Option<u64>| or_dash(&number.map(|number| number.to_string()));
        let octet = |of: fn(&Said) -> u8| number(said.as_ref().map(of).map(u64::from));
        write!(f, "signature {word} {} ", number(*made))?;
        write!(f, "{} {} ", octet(|said| said.kind), octet(|said| said.hash_algorithm))?;
        write!(f, "{} {} {}", or_dash(certificate), or_dash(key), or_dash(why))
    }
}
