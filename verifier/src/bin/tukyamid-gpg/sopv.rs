//! `tukyamid-sopv`: verifying by the stateless interface for OpenPGP (draft-dkg-openpgp-stateless-cli), of which sopv
//! is a part. Certificates are in files, or are those that the engine reaches: `@tukyamid:`.

use std::ffi::OsString;
use std::fs::File;
use std::io::{self, Write};
use std::path::{Path, PathBuf};

use tukyamid_verify::certificate::{certificates, Certificate};
use tukyamid_verify::holders::Holders;
use tukyamid_verify::input::read_all;
use tukyamid_verify::message::{copy_pieces, signatures_of, Message};
use tukyamid_verify::opening::{self, Source};
use tukyamid_verify::signature::kind::TEXT;
use tukyamid_verify::spool;

use crate::config::{Config, Policy};
use crate::contents::Target;
use crate::examine::{said_of, By, Examination, Found, Standing, Verdict};
use crate::human;
use crate::inputs::{read_signatures, Names};
use crate::service::Service;
use crate::status::upper;
use crate::streams::descriptor;
use crate::trust::{Level, Trust};
use crate::verifying::{bound_for_good, bounds, confine, held_by, now};

const HELP: &str = "\
usage: tukyamid-sopv version [--backend|--extended|--sop-spec|--sopv]
       tukyamid-sopv verify [--not-before=DATE] [--not-after=DATE] SIGNATURES CERTS.. < DATA
       tukyamid-sopv inline-verify [--not-before=DATE] [--not-after=DATE] [--verifications-out=FILE] CERTS.. < MESSAGE

CERTS is a file of certificates, or @tukyamid: for those that the engine reaches from your trust roots.
";

/// The statuses of the interface.
#[derive(Clone, Copy)]
pub enum Exit {
    NoSignature = 3,
    MissingArgument = 19,
    UnsupportedOption = 37,
    BadData = 41,
    OutputExists = 59,
    MissingInput = 61,
    UnsupportedSubcommand = 69,
    UnsupportedPrefix = 71,
    Failed = 1,
}

type Result<T> = std::result::Result<T, (Exit, String)>;

/// Does what the words ask for, and returns the exit status.
pub fn run(words: &[OsString]) -> u8 {
    let words: Vec<String> = words.iter().map(|word| word.to_string_lossy().into_owned()).collect();
    let done = match words.split_first() {
        None => Err((Exit::UnsupportedSubcommand, HELP.to_owned())),
        Some((word, rest)) => match word.as_str() {
            "version" => version(rest),
            "verify" => Request::read(rest, false).and_then(|request| request.verify()),
            "inline-verify" => Request::read(rest, true).and_then(|request| request.inline_verify()),
            "help" | "--help" => print(HELP),
            other => Err((Exit::UnsupportedSubcommand, format!("{} isn't known\n{HELP}", human::on_one_line(other)))),
        },
    };
    match done {
        Ok(()) => 0,
        Err((exit, why)) => {
            let _ = writeln!(io::stderr(), "tukyamid-sopv: {}", why.trim_end());
            exit as u8
        }
    }
}

fn print(text: &str) -> Result<()> {
    io::stdout().write_all(text.as_bytes()).map_err(|error| (Exit::Failed, error.to_string()))
}

fn version(words: &[String]) -> Result<()> {
    let own = concat!("tukyamid-sopv ", env!("CARGO_PKG_VERSION"), "\n");
    match words.iter().map(String::as_str).collect::<Vec<_>>()[..] {
        [] | ["--backend"] | ["--extended"] => print(own),
        ["--sop-spec"] => print("~draft-dkg-openpgp-stateless-cli-11\n"),
        ["--sopv"] => print("1.0\n"),
        _ => Err((Exit::UnsupportedOption, "this option of version isn't known".to_owned())),
    }
}

struct Request {
    not_before: u32,
    not_after: u32,
    verifications: Option<String>,
    /// Those of `verify`; None for a message that has its own.
    signatures: Option<String>,
    certificates: Vec<String>,
    now: u32,
}

impl Request {
    fn read(words: &[String], is_inline: bool) -> Result<Request> {
        let now = now().map_err(|why| (Exit::Failed, why))?;
        let mut request = Request {
            not_before: 0,
            not_after: now,
            verifications: None,
            signatures: None,
            certificates: Vec::new(),
            now,
        };
        let mut files: Vec<String> = Vec::new();
        let mut is_options = true;
        for word in words {
            match word.split_once('=').unwrap_or((word, "")) {
                ("--", "") if is_options => is_options = false,
                ("--not-before", date) if is_options => request.not_before = time_of(date, 0, now)?,
                ("--not-after", date) if is_options => request.not_after = time_of(date, now, now)?,
                ("--verifications-out", file) if is_options && is_inline => {
                    request.verifications = Some(file.to_owned())
                }
                (name, _) if is_options && name.starts_with("--") => {
                    return Err((Exit::UnsupportedOption, format!("{} isn't known", human::on_one_line(name))));
                }
                _ => files.push(word.clone()),
            }
        }
        if !is_inline && !files.is_empty() {
            request.signatures = Some(files.remove(0));
        }
        request.certificates = files;
        match request.certificates.is_empty() {
            true => Err((Exit::MissingArgument, HELP.to_owned())),
            false => Ok(request),
        }
    }

    fn verify(&self) -> Result<()> {
        let name = self.signatures.as_deref().unwrap_or_default();
        let source = opening::open(&path_of(name)?);
        let octets = source.and_then(|mut source| read_signatures(&mut source)).map_err(|error| missing(name, &error))?;
        let reading = bounds().map_err(failed)?;
        let bodies = signatures_of(&octets).map_err(|error| (Exit::BadData, error.to_string()))?;
        drop(reading);
        let lines = self.lines(&bodies, &mut |take| copy_pieces(&mut io::stdin().lock(), take))?;
        print(&lines)
    }

    fn inline_verify(&self) -> Result<()> {
        let mut file = descriptor(0).map(Source::of).and_then(spool::of_source).map_err(failed)?;
        let bad = |error: io::Error| (Exit::BadData, error.to_string());
        let reading = bounds().map_err(failed)?;
        let message = Message::read(&mut file).map_err(bad)?;
        drop(reading);
        message.check().map_err(|why| (Exit::BadData, why.to_owned()))?;
        let mut content = spool::unnamed().map_err(failed)?;
        let lines = self.lines(&message.signatures, &mut |take| {
            message.copy_data(&mut file, &mut |piece| {
                take(piece)?;
                content.write_all(piece)
            })
        })?;
        if message.is_cleartext() {
            content.write_all(b"\n").map_err(failed)?;
        }
        if let Some(name) = &self.verifications {
            let mut to =
                File::options().write(true).create_new(true).open(name).map_err(|error| unwritten(name, &error))?;
            to.write_all(lines.as_bytes()).map_err(|error| unwritten(name, &error))?;
        }
        let names = Names { has_special: false };
        Target { names: &names, output: None, may_replace: false }.write(&mut content).map_err(failed)
    }

    /// A line for each good signature; an Err if there is none.
    #[allow(clippy::type_complexity)]
    fn lines(
        &self,
        bodies: &[Vec<u8>],
        feed: &mut dyn FnMut(&mut dyn FnMut(&[u8]) -> io::Result<()>) -> io::Result<()>,
    ) -> Result<String> {
        let config = Config::load().map_err(|unusable| (Exit::Failed, unusable.to_string()))?;
        let is_asked = self.certificates.iter().any(|name| name == "@tukyamid:");
        let mut service = match is_asked {
            true => {
                let service = Service::open(config.socket.as_deref());
                Some(service.map_err(|away| (Exit::Failed, away.to_string()))?.limited())
            }
            false => None,
        };
        let given = self.given()?;
        let found = self.examined(bodies, &given, feed, service.as_mut())?;
        let mut lines = String::new();
        for one in found {
            if let Some(by) = self.signer(&one, &given, &config, service.as_mut())? {
                lines.push_str(&line_of(&one, by));
            }
        }
        match lines.is_empty() {
            true => Err((Exit::NoSignature, "there is no good signature by any of these certificates".to_owned())),
            false => Ok(lines),
        }
    }

    /// The octets of the certificates that are in files.
    fn given(&self) -> Result<Vec<Vec<u8>>> {
        let files = self.certificates.iter().filter(|name| *name != "@tukyamid:");
        let paths: Result<Vec<PathBuf>> = files.map(|name| path_of(name)).collect();
        let texts = read_all(&paths?, &mut Vec::new()).map_err(|error| (Exit::MissingInput, error.to_string()))?;
        Ok(texts.into_iter().map(|text| text.octets).collect())
    }

    /// What each signature comes to, by the given certificates and those that the service holds.
    #[allow(clippy::type_complexity)]
    fn examined(
        &self,
        bodies: &[Vec<u8>],
        given: &[Vec<u8>],
        feed: &mut dyn FnMut(&mut dyn FnMut(&[u8]) -> io::Result<()>) -> io::Result<()>,
        service: Option<&mut Service>,
    ) -> Result<Vec<Found>> {
        if bodies.len() > crate::verifying::MOST_SIGNATURES {
            return Err((Exit::BadData, "there are too many signatures".to_owned()));
        }
        let reading = bounds().map_err(failed)?;
        let mut held: Vec<Certificate> =
            given.iter().flat_map(|octets| certificates(octets, true, |_, _| {})).collect();
        if let Some(service) = service {
            let said: Vec<_> = bodies.iter().map(|body| said_of(body)).collect();
            let found =
                held_by(service, &said).map_err(|_| (Exit::Failed, "the service doesn't answer".to_owned()))?;
            held.extend(found);
        }
        drop(reading);
        // A file of verifications is made in the end.
        let confined = if self.verifications.is_none() { confine(&held) } else { bound_for_good() };
        confined.map_err(failed)?;
        let holders = Holders::of(&held);
        let mut examination = Examination::new(bodies, &holders, self.now);
        feed(&mut |piece| {
            examination.update(piece);
            Ok(())
        })
        .map_err(|error| (Exit::BadData, error.to_string()))?;
        Ok(examination.finish())
    }

    /// Who made it, with a key that is usable now, and that is in a file or reached by the engine.
    fn signer<'f>(
        &self,
        one: &'f Found,
        given: &[Vec<u8>],
        config: &Config,
        service: Option<&mut Service>,
    ) -> Result<Option<&'f By>> {
        let by = match &one.verdict {
            Verdict::Made(by, Standing::Usable) => by,
            _ => return Ok(None),
        };
        let created = one.said.created.unwrap_or(0);
        let is_over = one.said.expires.map_or(false, |end| end <= u64::from(self.now));
        if is_over || created < self.not_before || created > self.not_after {
            return Ok(None);
        }
        let mut held = given.iter().flat_map(|octets| certificates(octets, true, |_, _| {}));
        if held.any(|certificate| certificate.fingerprint() == Some(by.certificate)) {
            return Ok(Some(by));
        }
        let policy: &Policy = config.policy_for(&["sopv".to_owned()]);
        match service {
            Some(service) => {
                let mut trust = Trust { service, roots: &config.roots, policy, senders: &[], now: self.now };
                let signer = trust.signer(by, &one.said).map_err(|away| (Exit::Failed, away.to_string()))?;
                Ok(Some(by).filter(|_| signer.level >= Level::Fully))
            }
            None => Ok(None),
        }
    }
}

/// `2024-02-22T22:13:20Z KEY CERTIFICATE mode:binary`.
fn line_of(one: &Found, by: &By) -> String {
    let mode = if one.said.kind == TEXT { "text" } else { "binary" };
    let time = human::instant(one.said.created.unwrap_or(0));
    format!("{time} {} {} mode:{mode}\n", upper(&by.key), upper(&by.certificate))
}

/// A date of the interface: `-` is the bound itself, `now` the present, or `2024-02-22T22:13:20Z`.
fn time_of(date: &str, bound: u32, now: u32) -> Result<u32> {
    match date {
        "-" => Ok(bound),
        "now" => Ok(now),
        _ => human::seconds_of(date).ok_or((Exit::UnsupportedOption, format!("{date:?} isn't a date"))),
    }
}

/// A file, or the descriptor that `@FD:N` names.
fn path_of(name: &str) -> Result<PathBuf> {
    match name.strip_prefix("@FD:") {
        Some(number) if number.bytes().all(|digit| digit.is_ascii_digit()) => Ok(Path::new("/dev/fd").join(number)),
        None if !name.starts_with('@') => Ok(PathBuf::from(name)),
        _ => Err((Exit::UnsupportedPrefix, format!("{}: this name isn't known", human::on_one_line(name)))),
    }
}

fn failed(error: io::Error) -> (Exit, String) {
    (Exit::Failed, error.to_string())
}

fn missing(name: &str, error: &io::Error) -> (Exit, String) {
    (Exit::MissingInput, format!("{}: {error}", human::on_one_line(name)))
}

fn unwritten(name: &str, error: &io::Error) -> (Exit, String) {
    let exit = if error.kind() == io::ErrorKind::AlreadyExists { Exit::OutputExists } else { Exit::Failed };
    (exit, format!("{}: {error}", human::on_one_line(name)))
}
