//! The command line.

use std::ffi::OsString;
use std::path::PathBuf;

use lexopt::prelude::{Long, Short, Value, ValueExt};

pub const HELP: &str = "\
Verifies the signatures of OpenPGP keyrings and writes certificates and verdicts as a script for Tukyamid.

Usage: wot-verdicts [OPTION..] FILE|FOLDER..
       wot-verdicts --data FILE [--signature FILE] [OPTION..] FILE|FOLDER..

Standard output gets one line `import` for each certificate, with its packets unchanged, and one line `verdict`
for each certification, direct key signature, key revocation and certification revocation whose issuer is there.
With --data it gets one line `signature` for each signature on that data, and a line `outside before` or
`outside after` if there is unsigned text before or after a signed message or text.

Arguments:
  FILE|FOLDER..      Keyrings, binary or armored (- is standard input), or certificate directories

Options of keyrings:
  --with FILE..      Keyrings or directories whose keys may be issuers, and whose certificates aren't written
  --all              Verify signatures on user attributes and subkeys too
  --public           Write the public parts of secret keys, which are otherwise left out
  --certificates     Write only `import` lines, and verify nothing
  --pending          Read the engine's reply to `pending` from standard input, and write verdicts only
                     on these signatures
  --jobs N           Verify on N processors, by default on all
  --seconds N        Stop verifying after N seconds; what is left gets no verdict
  --stats            Print statistics on standard error at the end

Options of data:
  --data FILE        Verify the signatures on this file (- is standard input) with the keyrings' certificates
  --signature FILE   A file with detached signatures; otherwise the data is a signed message or text
  --content FILE     Write what is signed to this new file
  --at SECONDS       Verify as of this time in seconds since 1970, by default now

  -h, --help         Print this text
  -V, --version      Print the versions of this program and of its libraries

Exit statuses:
  0  everything was read, and what was asked for is written
  1  the same, but a part of the keyrings was left out; standard error says which
  2  the arguments are wrong
  3  an input can't be read; nothing is written
  4  an output can't be written
  5  everything was read, but some signatures weren't verified within their time: --seconds, and 10 seconds of a
     processor for each certificate
";

/// What the words ask for.
pub enum Request {
    Help,
    Version,
    Script(ScriptWords),
    Data(DataWords),
}

pub struct ScriptWords {
    pub inputs: Vec<PathBuf>,
    pub with: Vec<PathBuf>,
    pub all: bool,
    pub public: bool,
    pub certificates: bool,
    pub pending: bool,
    pub stats: bool,
    pub jobs: Option<usize>,
    pub seconds: Option<u32>,
}

pub struct DataWords {
    pub inputs: Vec<PathBuf>,
    pub data: PathBuf,
    pub signature: Option<PathBuf>,
    pub content: Option<PathBuf>,
    pub at: Option<u32>,
}

/// Every word, before it is clear which of them go together.
#[derive(Default)]
struct Given {
    inputs: Vec<PathBuf>,
    with: Vec<PathBuf>,
    all: bool,
    public: bool,
    certificates: bool,
    pending: bool,
    stats: bool,
    jobs: Option<usize>,
    seconds: Option<u32>,
    data: Option<PathBuf>,
    signature: Option<PathBuf>,
    content: Option<PathBuf>,
    at: Option<u32>,
}

impl Request {
    /// Reads the words after the program's name. An Err says what is wrong with them.
    pub fn read(words: impl IntoIterator<Item = OsString> + 'static) -> Result<Request, lexopt::Error> {
        let mut parser = lexopt::Parser::from_args(words);
        let mut given = Given::default();
        while let Some(word) = parser.next()? {
            match word {
                Short('h') | Long("help") => return Ok(Request::Help),
                Short('V') | Long("version") => return Ok(Request::Version),
                Long("with") => given.with.extend(parser.values()?.map(PathBuf::from)),
                Long("all") => given.all = true,
                Long("public") => given.public = true,
                Long("certificates") => given.certificates = true,
                Long("pending") => given.pending = true,
                Long("stats") => given.stats = true,
                Long("jobs") => given.jobs = Some(parser.value()?.parse()?),
                Long("seconds") => given.seconds = Some(parser.value()?.parse()?),
                Long("data") => given.data = Some(parser.value()?.into()),
                Long("signature") => given.signature = Some(parser.value()?.into()),
                Long("content") => given.content = Some(parser.value()?.into()),
                Long("at") => given.at = Some(parser.value()?.parse()?),
                Value(input) => given.inputs.push(input.into()),
                other => return Err(other.unexpected()),
            }
        }
        given.request()
    }
}

impl Given {
    fn request(self) -> Result<Request, lexopt::Error> {
        if self.inputs.is_empty() {
            return Err("a keyring is missing: FILE or FOLDER".into());
        }
        match self.data {
            Some(_) => self.data_words().map(Request::Data),
            None => self.script_words().map(Request::Script),
        }
    }

    fn script_words(self) -> Result<ScriptWords, lexopt::Error> {
        if self.signature.is_some() || self.content.is_some() || self.at.is_some() {
            return Err("--signature, --content and --at go with --data".into());
        }
        if self.jobs == Some(0) {
            return Err("--jobs takes a number, at least 1".into());
        }
        let is_verifying = self.pending
            || self.all
            || self.stats
            || self.jobs.is_some()
            || self.seconds.is_some()
            || !self.with.is_empty();
        if self.certificates && is_verifying {
            return Err("--certificates goes only with --public".into());
        }
        let Given { inputs, with, all, public, certificates, pending, stats, jobs, seconds, .. } = self;
        Ok(ScriptWords { inputs, with, all, public, certificates, pending, stats, jobs, seconds })
    }

    fn data_words(self) -> Result<DataWords, lexopt::Error> {
        let is_marked = self.all || self.public || self.certificates || self.pending || self.stats;
        if is_marked || self.jobs.is_some() || self.seconds.is_some() || !self.with.is_empty() {
            return Err("--data goes only with --signature, --content and --at".into());
        }
        if self.signature.is_some() && self.content.is_some() {
            return Err("--content doesn't go with --signature: what is signed is the data itself".into());
        }
        let data = self.data.ok_or("--data is missing")?;
        let Given { inputs, signature, content, at, .. } = self;
        Ok(DataWords { inputs, data, signature, content, at })
    }
}

#[cfg(test)]
mod tests {
    use super::*;

    fn read(words: &str) -> Result<Request, lexopt::Error> {
        Request::read(words.split_whitespace().map(OsString::from).collect::<Vec<_>>())
    }

    #[test]
    fn words_of_keyrings() {
        match read("a --with b c --jobs 2 --all -- --d") {
            Ok(Request::Script(words)) => {
                assert_eq!(words.inputs, [PathBuf::from("a"), PathBuf::from("--d")]);
                assert_eq!((words.with, words.all, words.jobs), (vec!["b".into(), "c".into()], true, Some(2)));
            }
            _ => panic!("not read as words of keyrings"),
        }
    }

    #[test]
    fn words_of_data() {
        match read("--data - --signature s --at 7 ring") {
            Ok(Request::Data(words)) => {
                assert_eq!((words.data, words.signature, words.at), ("-".into(), Some("s".into()), Some(7)));
            }
            _ => panic!("not read as words of data"),
        }
    }

    #[test]
    fn words_that_dont_go_together() {
        for words in [
            "", "--with", "ring --none", "ring --at 1", "ring --jobs 0", "ring --jobs x", "--data", "--data d",
            "--data d --all ring", "--data d --content c --signature s ring", "--data d --at -1 ring",
            "--data d --seconds 1 ring", "--certificates --pending ring", "--data d --certificates ring",
        ] {
            assert!(read(words).is_err(), "{words}");
        }
    }
}
