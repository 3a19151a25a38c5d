//! The real gpg at work, with trust by the engine: its status lines are read as they come, and what they say about
//! signatures is answered here. So a decrypted message, a keyring that is named, or a key that the service doesn't hold
//! gets the same answer as whatever is verified here.

use std::ffi::OsString;
use std::fs::File;
use std::io::{self, BufRead, BufReader, Read, Seek, SeekFrom};
use std::os::unix::io::{AsRawFd, FromRawFd, RawFd};
use std::os::unix::process::CommandExt;
use std::process::Command;

use tukyamid_verify::certificate::certificates;
use tukyamid_verify::fingerprint::Fingerprint;
use tukyamid_verify::said::Said;
use tukyamid_verify::signature::Issuer;

use crate::answer::{under_policy, Answer, Outcome};
use crate::blocks::{Block, Blocks, Next, Valid};
use crate::config::{Config, Policy};
use crate::contents::{aside, Target};
use crate::examine::{By, Code};
use crate::human::shown;
use crate::inputs::Names;
use crate::names::Program;
use crate::real;
use crate::service::Service;
use crate::socket::Away;
use crate::status::MARK;
use crate::trust::{Level, Signer, Trust};
use crate::words::{self, Call, Place};

/// What is longer is no status line.
const LONGEST_LINE: u64 = 1 << 20;

pub struct Relay<'c> {
    pub program: Program,
    pub call: &'c Call,
    pub config: &'c Config,
    pub policy: &'c Policy,
    /// Descriptors of the caller's that have been read, with files that hold the same from their beginning.
    pub again: Vec<(RawFd, File)>,
    pub now: u32,
}

/// What a strict policy holds back until it is clear that nothing is refused.
struct Held {
    text: File,
    content: File,
}

impl Relay<'_> {
    /// Answers, and returns the exit status.
    pub fn run(&self, answer: &mut Answer) -> u8 {
        self.try_run(answer).unwrap_or_else(|error| {
            answer.status.failure("verify", Code::General);
            answer.say(&format!("verify signatures failed: {error}"));
            2
        })
    }

    fn try_run(&self, answer: &mut Answer) -> io::Result<u8> {
        let (read, write) = pipe()?;
        let held = match self.policy.is_strict {
            true => Some(Held { text: aside()?, content: aside()? }),
            false => None,
        };
        let mut child = self.command(&write, held.as_ref())?.spawn()?;
        drop(write);
        let is_refused = self.relay(read, answer)?;
        let exit = child.wait()?.code().and_then(|code| u8::try_from(code).ok());
        if exit.is_none() {
            answer.status.failure("verify", Code::General);
        }
        if let (Some(held), false) = (held, is_refused) {
            self.release(held, exit == Some(0), answer)?;
        }
        Ok(if is_refused { 2 } else { exit.unwrap_or(2) })
    }

    fn command(&self, status: &File, held: Option<&Held>) -> io::Result<Command> {
        let mut line: Vec<OsString> = vec!["--status-fd".into(), status.as_raw_fd().to_string().into()];
        let mut option = |name: &str, value: OsString| line.extend([name.into(), value]);
        match (held, &self.call.logger) {
            (Some(held), _) => option("--logger-fd", held.text.as_raw_fd().to_string().into()),
            (None, Some(Place::Descriptor(number))) => option("--logger-fd", number.to_string().into()),
            (None, Some(Place::File(path))) => option("--log-file", path.clone()),
            (None, None) => {}
        }
        match (held, &self.call.output) {
            (Some(_), output) if output.is_some() || self.call.command != words::Command::Verify => {
                option("--output", "-".into());
            }
            (None, Some(output)) => option("--output", output.clone()),
            _ => {}
        }
        line.extend(self.call.kept.iter().cloned());
        line.push("--".into());
        line.extend(self.call.files.iter().cloned());
        let mut command = real::command(self.program, &line)?;
        let mut opened: Vec<(RawFd, RawFd)> = vec![(status.as_raw_fd(), status.as_raw_fd())];
        if let Some(held) = held {
            opened.push((held.text.as_raw_fd(), held.text.as_raw_fd()));
            opened.push((held.content.as_raw_fd(), 1));
        }
        opened.extend(self.again.iter().map(|(number, file)| (file.as_raw_fd(), *number)));
        unsafe { command.pre_exec(move || opened.iter().try_for_each(|(from, to)| inherit(*from, *to))) };
        Ok(command)
    }

    /// Passes status lines on. Whether anything is refused.
    fn relay(&self, read: File, answer: &mut Answer) -> io::Result<bool> {
        let mut reader = BufReader::new(read);
        let mut blocks = Blocks::default();
        let mut is_refused = false;
        let mut line = Vec::new();
        loop {
            line.clear();
            let length = Read::by_ref(&mut reader).take(LONGEST_LINE).read_until(b'\n', &mut line)?;
            if length == 0 {
                return Ok(self.answer_all(blocks.end(), answer) || is_refused);
            }
            if let Next::Other(found, line) = blocks.take(line.strip_suffix(b"\n").unwrap_or(&line)) {
                is_refused |= self.answer_all(found, answer);
                answer.status.raw(&[MARK.as_bytes(), &line, b"\n"].concat());
            }
        }
    }

    /// Answers signatures. Whether any is refused.
    fn answer_all(&self, blocks: Vec<Block>, answer: &mut Answer) -> bool {
        if blocks.is_empty() {
            return false;
        }
        match self.outcomes(&blocks) {
            Ok(found) => {
                let (said, outcomes): (Vec<_>, Vec<_>) = found.into_iter().unzip();
                let outcomes = under_policy(outcomes, self.policy);
                for ((block, said), outcome) in blocks.iter().zip(&said).zip(&outcomes) {
                    self.answer_one(block, said.as_ref(), outcome.as_ref(), answer);
                }
                outcomes.iter().flatten().any(|outcome| outcome.exit() == 2)
            }
            Err(away) => {
                for block in &blocks {
                    let said = block.valid().map(|valid| said_by(block, &valid));
                    let broken = Outcome::Refused(Code::General, away.to_string());
                    self.answer_one(block, said.as_ref(), said.is_some().then(|| &broken), answer);
                }
                answer.status.failure("verify", Code::General);
                true
            }
        }
    }

    /// Of a signature that isn't valid gpg's own lines are passed on.
    fn answer_one(&self, block: &Block, said: Option<&Said>, outcome: Option<&Outcome>, answer: &mut Answer) {
        match (said, outcome) {
            (Some(said), Some(outcome)) => {
                // The real gpg has written what a user sees; of trust it knows nothing.
                let mut silent = crate::streams::Stream::none();
                Answer { status: &mut *answer.status, text: &mut silent }.signature(said, outcome);
                answer.say(&trust_text(outcome));
            }
            _ => {
                for line in block.lines.iter().filter(|line| !crate::blocks::word_of(line).starts_with(b"TRUST_")) {
                    answer.status.raw(&[MARK.as_bytes(), line, b"\n"].concat());
                }
            }
        }
    }

    /// What each signature comes to that gpg takes for valid.
    #[allow(clippy::type_complexity)]
    fn outcomes(&self, blocks: &[Block]) -> Result<Vec<(Option<Said>, Option<Outcome>)>, Away> {
        let mut service = None;
        let mut found = Vec::new();
        for block in blocks {
            let outcome = match block.valid() {
                Some(valid) => {
                    let service = match &mut service {
                        Some(service) => service,
                        None => service.insert(Service::open(self.config.socket.as_deref())?.limited()),
                    };
                    let said = said_by(block, &valid);
                    let outcome = self.outcome(block, &valid, &said, service)?;
                    (Some(said), Some(outcome))
                }
                None => (None, None),
            };
            found.push(outcome);
        }
        Ok(found)
    }

    fn outcome(&self, block: &Block, valid: &Valid, said: &Said, service: &mut Service) -> Result<Outcome, Away> {
        let unknown = || Outcome::Refused(Code::General, "gpg answers what isn't known here".to_owned());
        let (certificate, key) = match (fingerprint(&valid.certificate), fingerprint(&valid.key)) {
            (Some(certificate), Some(key)) => (certificate, key),
            _ => return Ok(unknown()),
        };
        let words = ["GOODSIG", "EXPSIG", "EXPKEYSIG", "REVKEYSIG"];
        let mut named = words.iter().filter_map(|word| Some((*word, block.rest(word)?)));
        let (word, rest) = match (named.next(), named.next()) {
            (Some(one), None) => one,
            _ => return Ok(unknown()),
        };
        let user_ids = user_ids_of(certificate, service)?;
        let gpgs = unescaped(rest.splitn(2, |octet| *octet == b' ').nth(1).unwrap_or_default());
        let is_held = !user_ids.is_empty();
        let by = By { certificate, key, user_ids: if is_held { user_ids } else { vec![gpgs.clone()] } };
        let signer = if is_held {
            let (roots, policy, senders) = (&self.config.roots, self.policy, &self.call.senders[..]);
            Trust { service, roots, policy, senders, now: self.now }.signer(&by, said)?
        } else {
            Signer { user_id: gpgs, amount: 0, level: Level::Undefined, is_certified_since: false }
        };
        let end = || block.rest("KEYEXPIRED").and_then(|rest| std::str::from_utf8(rest).ok()?.parse().ok());
        Ok(match word {
            "GOODSIG" => Outcome::Good(by, signer),
            "EXPSIG" => Outcome::ExpiredSignature(by, signer),
            "EXPKEYSIG" => Outcome::ExpiredKey(by, signer, end().unwrap_or(0)),
            _ => Outcome::RevokedKey(by, signer),
        })
    }

    /// Hands over what was held back: the content only if gpg was content with it.
    fn release(&self, mut held: Held, is_good: bool, answer: &mut Answer) -> io::Result<()> {
        let mut text = Vec::new();
        held.text.seek(SeekFrom::Start(0))?;
        held.text.take(LONGEST_LINE).read_to_end(&mut text)?;
        answer.text.write(&text);
        if !is_good || held.content.metadata()?.len() == 0 {
            return Ok(());
        }
        let names = Names { has_special: self.call.has_special_names };
        Target { names: &names, output: self.call.output.as_ref(), may_replace: self.call.is_yes }
            .write(&mut held.content)
    }
}

/// The user IDs of a certificate that the service holds.
fn user_ids_of(certificate: Fingerprint, service: &mut Service) -> Result<Vec<Vec<u8>>, Away> {
    let mut user_ids = Vec::new();
    for octets in service.holders(&[Issuer::Fingerprint(certificate)])? {
        for held in certificates(&octets, true, |_, _| {}) {
            if held.fingerprint() == Some(certificate) {
                user_ids.extend(held.user_ids().map(<[u8]>::to_vec));
            }
        }
    }
    Ok(user_ids)
}

fn trust_text(outcome: &Outcome) -> String {
    match outcome {
        Outcome::Good(_, signer) => {
            format!("Tukyamid: \"{}\" [{}], amount {}", shown(&signer.user_id), signer.level.shown(), signer.amount)
        }
        Outcome::Refused(_, why) => format!("Tukyamid: {why}"),
        _ => "Tukyamid: no trust".to_owned(),
    }
}

fn said_by(block: &Block, valid: &Valid) -> Said {
    let named = block.rest("NEWSIG").filter(|rest| !rest.is_empty()).map(unescaped);
    let id = block.rest("SIG_ID").and_then(|rest| std::str::from_utf8(rest).ok()?.split(' ').next());
    Said {
        version: 4,
        kind: valid.kind,
        key_algorithm: valid.key_algorithm,
        hash_algorithm: valid.hash_algorithm,
        created: Some(valid.created),
        expires: valid.expires,
        issuers: fingerprint(&valid.key).map(Issuer::Fingerprint).into_iter().collect(),
        signers_user_id: named,
        id: id.map(str::to_owned),
    }
}

pub fn fingerprint(digits: &str) -> Option<Fingerprint> {
    let octets: Option<Vec<u8>> =
        (0..digits.len()).step_by(2).map(|place| u8::from_str_radix(digits.get(place..place + 2)?, 16).ok()).collect();
    let octets = octets?;
    match octets.len() {
        20 => octets.try_into().ok().map(Fingerprint::V4),
        32 => octets.try_into().ok().map(Fingerprint::V6),
        _ => None,
    }
}

/// The octets that gpg has spelled as `%XX`.
fn unescaped(text: &[u8]) -> Vec<u8> {
    let mut octets = Vec::new();
    let mut rest = text;
    while let Some((first, more)) = rest.split_first() {
        let spelled = more.get(..2).and_then(|pair| std::str::from_utf8(pair).ok());
        match spelled.and_then(|pair| u8::from_str_radix(pair, 16).ok()).filter(|_| *first == b'%') {
            Some(octet) => {
                octets.push(octet);
                rest = &more[2..];
            }
            None => {
                octets.push(*first);
                rest = more;
            }
        }
    }
    octets
}

fn pipe() -> io::Result<(File, File)> {
    let mut ends = [0; 2];
    if unsafe { libc::pipe2(ends.as_mut_ptr(), libc::O_CLOEXEC) } < 0 {
        return Err(io::Error::last_os_error());
    }
    Ok(unsafe { (File::from_raw_fd(ends[0]), File::from_raw_fd(ends[1])) })
}

/// In the new process: has it a descriptor under this number.
fn inherit(from: RawFd, to: RawFd) -> io::Result<()> {
    let done = unsafe {
        if from == to {
            libc::fcntl(from, libc::F_SETFD, 0)
        } else {
            libc::dup2(from, to)
        }
    };
    if done < 0 {
        Err(io::Error::last_os_error())
    } else {
        Ok(())
    }
}

#[cfg(test)]
mod tests {
    use super::*;

    #[test]
    fn what_gpg_escaped_is_read_back() {
        assert_eq!(unescaped(b"a%0Ab%25c%zz%4"), b"a\nb%c%zz%4");
    }

    #[test]
    fn fingerprints_have_their_lengths() {
        assert_eq!(fingerprint(&"ab".repeat(20)), Some(Fingerprint::V4([0xab; 20])));
        assert_eq!(fingerprint(&"ab".repeat(32)), Some(Fingerprint::V6([0xab; 32])));
        assert_eq!((fingerprint("ab"), fingerprint(&"zz".repeat(20)), fingerprint("")), (None, None, None));
    }
}
