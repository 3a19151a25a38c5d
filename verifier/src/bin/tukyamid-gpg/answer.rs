//! What the caller gets for a signature: gpg's status lines, and the text for people.
//!
//! `VALIDSIG` follows only if a key made the signature and could. One `TRUST_` line follows `GOODSIG`. After anything
//! else there is none that says more than `TRUST_UNDEFINED`.

use crate::config::Policy;
use crate::examine::{By, Code, Standing, Verdict};
use crate::human::{self, date, grouped, on_one_line, shown};
use crate::status::{key_id, upper, Status};
use crate::streams::Stream;
use crate::trust::{Level, Signer};
use tukyamid_verify::said::Said;

/// What a signature comes to for the caller.
pub enum Outcome {
    Good(By, Signer),
    ExpiredSignature(By, Signer),
    ExpiredKey(By, Signer, u64),
    RevokedKey(By, Signer),
    Bad(By),
    Refused(Code, String),
}

impl Outcome {
    /// Of what was found, before it is clear how many signers there are.
    pub fn of(verdict: Verdict, said: &Said, signer: Option<Signer>, now: u32) -> Outcome {
        let is_over = said.expires.map_or(false, |end| end <= u64::from(now));
        match (verdict, signer) {
            (Verdict::Refused(code, why), _) => Outcome::Refused(code, why),
            (Verdict::Bad(by), _) => Outcome::Bad(by),
            (Verdict::Made(..), None) => {
                Outcome::Refused(Code::General, "nobody was asked about its signer".to_owned())
            }
            // gpg ends with 1 then, and with 0 if only the key has expired or is revoked.
            (Verdict::Made(by, _), Some(signer)) if is_over => Outcome::ExpiredSignature(by, signer),
            (Verdict::Made(by, Standing::Revoked), Some(signer)) => Outcome::RevokedKey(by, signer),
            (Verdict::Made(by, Standing::Expired(end)), Some(signer)) => Outcome::ExpiredKey(by, signer, end),
            (Verdict::Made(by, Standing::Usable), Some(signer)) => Outcome::Good(by, signer),
        }
    }

    /// Whether it is a good signature by a fully trusted signer; then the signer's fingerprint.
    pub fn full_signer(&self) -> Option<String> {
        match self {
            Outcome::Good(by, signer) if signer.level >= Level::Fully => Some(by.certificate.to_string()),
            _ => None,
        }
    }

    /// If there are too few signers, none is fully trusted.
    pub fn lower(&mut self) {
        if let Outcome::Good(_, signer) = self {
            signer.level = signer.level.min(Level::Marginal);
        }
    }

    /// Refuses what the policy doesn't let pass.
    pub fn restrict(self, policy: &Policy) -> Outcome {
        let wanted = policy.amount;
        let refused =
            |why: String| Outcome::Refused(Code::UnusableKey, format!("refused by your configuration: {why}"));
        match self {
            Outcome::Good(_, signer) if signer.level < Level::Fully => refused(format!(
                "\"{}\" is reached to the amount {}, and not to {wanted} by {} as it asks",
                shown(&signer.user_id),
                signer.amount,
                if policy.threshold == 1 { "a signer".to_owned() } else { format!("{} signers", policy.threshold) },
            )),
            Outcome::ExpiredSignature(..) => refused("the signature has expired".to_owned()),
            Outcome::ExpiredKey(..) => refused("the key has expired".to_owned()),
            Outcome::RevokedKey(..) => refused("the key has been revoked".to_owned()),
            other => other,
        }
    }

    /// gpg's exit status.
    pub fn exit(&self) -> u8 {
        match self {
            Outcome::Good(..) | Outcome::ExpiredKey(..) | Outcome::RevokedKey(..) => 0,
            Outcome::Bad(_) | Outcome::ExpiredSignature(..) => 1,
            Outcome::Refused(..) => 2,
        }
    }
}

/// Counts the signers, and refuses what a strict policy doesn't let pass. What isn't known here is None, and stays.
pub fn under_policy(mut outcomes: Vec<Option<Outcome>>, policy: &Policy) -> Vec<Option<Outcome>> {
    let mut signers: Vec<String> = outcomes.iter().flatten().filter_map(Outcome::full_signer).collect();
    signers.sort();
    signers.dedup();
    if signers.len() < policy.threshold {
        outcomes.iter_mut().flatten().for_each(Outcome::lower);
    }
    match policy.is_strict {
        true => outcomes.into_iter().map(|outcome| outcome.map(|outcome| outcome.restrict(policy))).collect(),
        false => outcomes,
    }
}

pub struct Answer<'s> {
    pub status: &'s mut Status,
    pub text: &'s mut Stream,
}

impl Answer<'_> {
    pub fn say(&mut self, text: &str) {
        self.text.write(format!("gpg: {}\n", on_one_line(text)).as_bytes());
    }

    pub fn signature(&mut self, said: &Said, outcome: &Outcome) {
        match &said.signers_user_id {
            Some(user_id) => self.status.line_with("NEWSIG", user_id),
            None => self.status.line("NEWSIG"),
        }
        self.say_origin(said);
        match outcome {
            Outcome::Good(by, signer) => self.good(said, by, signer),
            Outcome::ExpiredSignature(by, signer) => {
                self.made("EXPSIG", said, by, signer);
                self.status.line("TRUST_UNDEFINED 0 pgp");
                self.say(&format!("Expired signature from \"{}\"", shown(&signer.user_id)));
                let end = said.expires.and_then(|end| u32::try_from(end).ok()).unwrap_or(u32::MAX);
                self.say(&format!("Signature expired {}", date(end)));
            }
            Outcome::ExpiredKey(by, signer, end) => {
                self.status.line(&format!("KEYEXPIRED {end}"));
                self.made("EXPKEYSIG", said, by, signer);
                self.say(&format!("Good signature from \"{}\" [expired]", shown(&signer.user_id)));
                self.say("Note: This key has expired!");
                self.say_fingerprint(by);
            }
            Outcome::RevokedKey(by, signer) => {
                self.made("REVKEYSIG", said, by, signer);
                self.status.line("KEYREVOKED");
                self.status.line("TRUST_UNDEFINED 0 pgp");
                self.say(&format!("Good signature from \"{}\" [revoked]", shown(&signer.user_id)));
                self.say("WARNING: This key has been revoked by its owner!");
                self.say("         This could mean that the signature is forged.");
                self.say_fingerprint(by);
            }
            Outcome::Bad(by) => {
                let user_id = by.user_ids.first().map_or(&b"[?]"[..], Vec::as_slice);
                self.status.line_with(&format!("BADSIG {}", id_of(by)), user_id);
                self.say(&format!("BAD signature from \"{}\"", shown(user_id)));
            }
            Outcome::Refused(code, why) => {
                self.status.error(said, *code);
                self.say(&format!("Can't check signature: {}", capitalized(why, *code)));
            }
        }
    }

    fn good(&mut self, said: &Said, by: &By, signer: &Signer) {
        self.made("GOODSIG", said, by, signer);
        self.status.line(&format!("{} 0 pgp", signer.level.word()));
        self.say(&format!("Good signature from \"{}\" [{}]", shown(&signer.user_id), signer.level.shown()));
        match signer.level {
            Level::Fully | Level::Ultimate => return,
            Level::Marginal => {
                self.say("WARNING: This key is not certified with sufficiently trusted signatures!");
                self.say("         It is not certain that the signature belongs to the owner.");
            }
            Level::Undefined => {
                self.say("WARNING: This key is not certified with a trusted signature!");
                self.say("         There is no indication that the signature belongs to the owner.");
            }
        }
        if signer.is_certified_since {
            self.say("         It is certified now, but it wasn't when this was signed.");
        }
        self.say_fingerprint(by);
    }

    /// `SIG_ID`, `GOODSIG` or one of its kin, and `VALIDSIG`.
    fn made(&mut self, word: &str, said: &Said, by: &By, signer: &Signer) {
        let created = said.created.unwrap_or(0);
        if let Some(id) = &said.id {
            self.status.line(&format!("SIG_ID {id} {} {created}", human::day(created)));
        }
        self.status.line_with(&format!("{word} {}", id_of(by)), &signer.user_id);
        self.status.line(&format!(
            "VALIDSIG {} {} {created} {} {} 0 {} {} {:02X} {}",
            upper(&by.key),
            human::day(created),
            said.expires.unwrap_or(0),
            said.version,
            said.key_algorithm,
            said.hash_algorithm,
            said.kind,
            upper(&by.certificate),
        ));
    }

    fn say_origin(&mut self, said: &Said) {
        if let Some(created) = said.created {
            self.say(&format!("Signature made {}", date(created)));
        }
        let key = said.fingerprint().as_ref().map_or_else(|| key_id(said), upper);
        self.say(&format!("               using {} key {key}", human::key_algorithm(said.key_algorithm)));
        if let Some(user_id) = &said.signers_user_id {
            self.say(&format!("               issuer \"{}\"", shown(user_id)));
        }
    }

    fn say_fingerprint(&mut self, by: &By) {
        self.text.write(format!("Primary key fingerprint: {}\n", grouped(&by.certificate)).as_bytes());
        if by.key != by.certificate {
            self.text.write(format!("     Subkey fingerprint: {}\n", grouped(&by.key)).as_bytes());
        }
    }
}

fn id_of(by: &By) -> String {
    by.key.key_id().to_string().to_uppercase()
}

/// gpg's own words for the commonest reason.
fn capitalized(why: &str, code: Code) -> String {
    if code == Code::NoKey {
        "No public key".to_owned()
    } else {
        why.to_owned()
    }
}
