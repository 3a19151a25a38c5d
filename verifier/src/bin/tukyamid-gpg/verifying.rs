//! Verifying what a caller names: who holds the keys, what the signatures come to, and how far the signers are trusted.

use std::fs::File;
use std::io::{self, Seek, SeekFrom, Write};
use std::time::{SystemTime, UNIX_EPOCH};

use tukyamid_verify::certificate::{certificates, Certificate};
use tukyamid_verify::confinement::{self, Bounds};
use tukyamid_verify::holders::Holders;
use tukyamid_verify::said::Said;
use tukyamid_verify::signature::Issuer;
use tukyamid_verify::spool;

use crate::answer::{under_policy, Answer, Outcome};
use crate::config::{Config, Policy};
use crate::contents::Target;
use crate::examine::{said_of, sought_for, Code, Examination, Found, Verdict};
use crate::human;
use crate::inputs::Names;
use crate::service::Service;
use crate::socket::Away;
use crate::sources::{broken, Again, Failed, Signed};
use crate::trust::Trust;
use crate::words::{Call, Command};

/// A file of more signatures is refused: each costs time.
pub const MOST_SIGNATURES: usize = 64;
/// The octets of the certificates that may have made the signatures.
const MOST_OCTETS: usize = 1 << 23;
/// The memory of a run: data are read in pieces.
const MEMORY: u64 = 1 << 30;
/// The processor time that reading signatures and certificates may take, before any data are looked at.
const SECONDS: u64 = 300;

impl From<Away> for Failed {
    fn from(away: Away) -> Failed {
        Failed::Broken(away.to_string())
    }
}

/// What a message holds, and whether it is a text with a cleartext signature.
struct Content {
    file: File,
    is_cleartext: bool,
}

pub struct Verifying<'c> {
    pub call: &'c Call,
    pub config: &'c Config,
    pub policy: &'c Policy,
    pub now: u32,
}

impl Verifying<'_> {
    /// Answers, and returns gpg's exit status; an Err if the real gpg has to do it.
    pub fn run(&self, answer: &mut Answer) -> Result<u8, Again> {
        let mut said = Vec::new();
        match self.outcomes(&mut said, answer) {
            Ok((outcomes, content)) => Ok(self.report(answer, &said, &outcomes, content)),
            Err(Failed::Elsewhere(again)) => Err(again),
            Err(failed) => Ok(self.fail(answer, &said, failed)),
        }
    }

    fn report(&self, answer: &mut Answer, said: &[Said], outcomes: &[Outcome], content: Option<Content>) -> u8 {
        let exit = outcomes.iter().map(Outcome::exit).max().unwrap_or(2);
        let is_written = exit == 0 || !self.policy.is_strict;
        if let Some(content) = content.filter(|_| is_written) {
            if let Err(why) = self.write(answer, content) {
                return self.fail(answer, &[], Failed::Input(why));
            }
        }
        for (said, outcome) in said.iter().zip(outcomes) {
            answer.signature(said, outcome);
        }
        if self.config.roots.is_empty() {
            answer.say("no trust root is set, so nobody is trusted: tukyamid root add KEY");
        }
        if exit == 1 && self.call.is_batch {
            answer.status.failure("gpg-exit", Code::General);
        }
        exit
    }

    fn write(&self, answer: &mut Answer, mut content: Content) -> Result<(), String> {
        let names = self.names();
        let length = content.file.seek(SeekFrom::End(0)).map_err(|error| error.to_string())?;
        if content.is_cleartext {
            answer.status.line("PLAINTEXT 74 0 ");
        } else {
            answer.status.line("PLAINTEXT 62 0 ");
            answer.status.line(&format!("PLAINTEXT_LENGTH {length}"));
        }
        let target = Target { names: &names, output: self.call.output.as_ref(), may_replace: self.call.is_yes };
        target.write(&mut content.file).map_err(|error| format!("can't write what is signed: {error}"))
    }

    fn fail(&self, answer: &mut Answer, said: &[Said], failed: Failed) -> u8 {
        let why = match failed {
            Failed::NoData(why) => {
                answer.status.line("NODATA 1");
                answer.status.line("NODATA 2");
                why
            }
            Failed::Input(why) => why,
            Failed::Broken(why) => {
                for one in said {
                    answer.signature(one, &Outcome::Refused(Code::General, "see below".to_owned()));
                }
                why
            }
            Failed::Elsewhere(_) => "it has to be done by the real gpg".to_owned(),
        };
        answer.status.failure("verify", Code::General);
        answer.say(&format!("verify signatures failed: {why}"));
        2
    }

    /// What each signature comes to. `said` gets what they say of themselves as soon as they are read.
    fn outcomes(&self, said: &mut Vec<Said>, answer: &mut Answer) -> Result<(Vec<Outcome>, Option<Content>), Failed> {
        let names = self.names();
        let reading = bounds().map_err(broken)?;
        let Signed { bodies, data, again, notes } = Signed::open(self.call, &names)?;
        if bodies.len() > MOST_SIGNATURES {
            return Err(Failed::Broken(format!("there are more than {MOST_SIGNATURES} signatures")));
        }
        said.extend(bodies.iter().map(|body| said_of(body)));
        // A service that is started hasn't these bounds.
        drop(reading);
        let mut service = Service::open(self.config.socket.as_deref())?.limited();
        let reading = bounds().map_err(broken)?;
        let held = held_by(&mut service, said)?;
        let holders = Holders::of(&held);
        let is_known = said.iter().any(|one| !holders.named(&one.issuers).is_empty());
        if !is_known && !self.policy.is_strict {
            // gpg's own keyring may have the key.
            return Err(Failed::Elsewhere(again));
        }
        notes.iter().for_each(|note| answer.say(note));
        let mut content = self.content_of(data.has_content(), data.is_cleartext())?;
        let mut data = data.opened(&names)?;
        drop(reading);
        self.confine(&held, data.is_open(), content.is_some())?;
        let mut examination = Examination::new(&bodies, &holders, self.now);
        data.feed(&names, &mut |piece| {
            examination.update(piece);
            content.as_mut().map_or(Ok(()), |content| content.file.write_all(piece))
        })?;
        if let Some(Content { file, is_cleartext: true }) = &mut content {
            file.write_all(b"\n").map_err(broken)?;
        }
        let mut trust = Trust {
            service: &mut service,
            roots: &self.config.roots,
            policy: self.policy,
            senders: &self.call.senders,
            now: self.now,
        };
        let found = examination.finish();
        let outcomes: Result<Vec<_>, Failed> =
            found.into_iter().map(|one| outcome(one, &mut trust).map(Some)).collect();
        Ok((under_policy(outcomes?, self.policy).into_iter().flatten().collect(), content))
    }

    /// Leaves this process nothing but what is open, unless a file still has to be opened: one of several data, or the
    /// one that is made in the end of what is signed.
    fn confine(&self, held: &[Certificate], is_open: bool, has_content: bool) -> Result<(), Failed> {
        let names = self.names();
        let is_made = self.call.output.as_ref().map_or(false, |name| names.descriptor_of(name).is_none());
        if !is_open || (has_content && is_made) {
            return bound_for_good().map_err(broken);
        }
        confine(held).map_err(broken)
    }

    /// Where what is signed is kept meanwhile, if the caller wants it.
    fn content_of(&self, is_there: bool, is_cleartext: bool) -> Result<Option<Content>, Failed> {
        let is_wanted = self.call.output.is_some() || self.call.command != Command::Verify;
        match is_there && is_wanted {
            true => Ok(Some(Content { file: spool::unnamed().map_err(broken)?, is_cleartext })),
            false => Ok(None),
        }
    }

    fn names(&self) -> Names {
        Names { has_special: self.call.has_special_names }
    }
}

/// Bounds for reading what strangers wrote, as long as what is returned exists.
pub fn bounds() -> io::Result<Bounds> {
    Bounds::begin(MEMORY, SECONDS)
}

/// Gives up all that verifying by these certificates doesn't need, before data and keys are looked at.
pub fn confine(held: &[Certificate]) -> io::Result<()> {
    human::read_zone();
    bound_for_good()?;
    confinement::close_asking(held)
}

/// Bounds the memory, and gives up whatever rights another program would have.
pub fn bound_for_good() -> io::Result<()> {
    confinement::enter_with_open_files()?;
    confinement::limit_memory(MEMORY)
}

/// The certificates that may have made these signatures.
pub fn held_by(service: &mut Service, said: &[Said]) -> Result<Vec<Certificate<'static>>, Failed> {
    let octets = service.holders(&sought(said))?;
    if octets.iter().map(Vec::len).sum::<usize>() > MOST_OCTETS {
        return Err(Failed::Broken("the certificates that may have signed are too large".to_owned()));
    }
    // They are needed until the process ends.
    let octets: &'static [Vec<u8>] = Box::leak(octets.into_boxed_slice());
    Ok(octets.iter().flat_map(|octets| certificates(octets, true, |_, _| {})).collect())
}

fn outcome(found: Found, trust: &mut Trust) -> Result<Outcome, Failed> {
    let signer = match &found.verdict {
        Verdict::Made(by, _) => Some(trust.signer(by, &found.said)?),
        _ => None,
    };
    Ok(Outcome::of(found.verdict, &found.said, signer, trust.now))
}

/// Those by which the keys of all signatures are sought, each once.
fn sought(said: &[Said]) -> Vec<Issuer> {
    let mut issuers: Vec<Issuer> = Vec::new();
    for issuer in said.iter().flat_map(sought_for) {
        if !issuers.contains(&issuer) {
            issuers.push(issuer);
        }
    }
    issuers
}

/// The present, in seconds since 1970.
pub fn now() -> Result<u32, String> {
    let since = SystemTime::now().duration_since(UNIX_EPOCH).ok();
    let seconds = since.and_then(|since| u32::try_from(since.as_secs()).ok());
    seconds.ok_or_else(|| "the system's clock is wrong".to_owned())
}
