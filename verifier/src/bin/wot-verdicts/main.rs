//! Verifies the signatures of OpenPGP keyrings, and writes the script for the engine; and those on data.

mod issuers;
mod pending;
mod progress;
mod script;
mod stats;
mod verdict;
mod words;
mod writing;

use std::fmt;
use std::fs::{self, Metadata};
use std::io::{self, BufWriter, Write};
use std::path::PathBuf;
use std::process::ExitCode;
use std::thread;
use std::time::{Duration, Instant};

use tukyamid_verify::confinement;
use tukyamid_verify::data::{Broken, Signed};
use tukyamid_verify::holders::Holders;
use tukyamid_verify::input::{self, Raw, Text};
use tukyamid_verify::keyring;
use tukyamid_verify::notice::Notice;
use tukyamid_verify::shown::on_one_line;

use issuers::Issuers;
use script::Script;
use stats::Stats;
use verdict::Verifier;
use words::{DataWords, Request, ScriptWords};

/// The engine reads no more than this in one run.
const ENGINE_INPUT: u64 = 1 << 30;

/// The memory that a run may use: so much in any case, and for each octet of the keyrings.
const MEMORY: u64 = 1 << 30;
const MEMORY_AN_OCTET: u64 = 32;
/// The processor time that signatures on data may take, and for each octet of the data.
const DATA_SECONDS: u64 = 300;
const OCTETS_A_SECOND: u64 = 10 << 20;

/// Why a run ended early.
enum Failed {
    Words(String),
    Input(String),
    Output(String),
}

impl Failed {
    fn status(&self) -> u8 {
        match self {
            Failed::Words(_) => 2,
            Failed::Input(_) => 3,
            Failed::Output(_) => 4,
        }
    }
}

impl fmt::Display for Failed {
    fn fmt(&self, f: &mut fmt::Formatter<'_>) -> fmt::Result {
        match self {
            Failed::Words(why) => write!(f, "{why} (wot-verdicts --help)"),
            Failed::Input(why) | Failed::Output(why) => f.write_str(why),
        }
    }
}

/// Of a write to standard output.
impl From<io::Error> for Failed {
    fn from(error: io::Error) -> Failed {
        Failed::Output(format!("standard output: {error}"))
    }
}

impl From<Broken> for Failed {
    fn from(broken: Broken) -> Failed {
        match broken {
            Broken::Input(why) => Failed::Input(why),
            Broken::Output(why) => Failed::Output(why),
        }
    }
}

fn main() -> ExitCode {
    let request = Request::read(std::env::args_os().skip(1)).map_err(|error| Failed::Words(error.to_string()));
    match request.and_then(run) {
        Ok(done) => ExitCode::from(done as u8),
        Err(failed) => {
            eprintln!("wot-verdicts: {}", on_one_line(&failed.to_string()));
            ExitCode::from(failed.status())
        }
    }
}

/// How a run ended that read and wrote all: its exit status.
enum Done {
    Whole = 0,
    /// A part of the keyrings was left out.
    Part = 1,
    /// Some signatures weren't verified within their time.
    Late = 5,
}

impl Done {
    fn with(notices: &[Notice]) -> Done {
        if notices.iter().any(|notice| notice.what.is_left_out()) { Done::Part } else { Done::Whole }
    }
}

fn run(request: Request) -> Result<Done, Failed> {
    match request {
        Request::Help => print(words::HELP),
        Request::Version => print(&version()),
        Request::Script(words) => confined().and_then(|()| write_script(&words)),
        Request::Data(words) => confined().and_then(|()| verify_data(&words)),
    }
}

/// Gives up what isn't needed, before anything is read.
fn confined() -> Result<(), Failed> {
    confinement::enter().map_err(unconfined)
}

/// Gives up opening files and whatever else reading what is open doesn't need, before anything is looked at.
fn closed() -> Result<(), Failed> {
    confinement::close().map_err(unconfined)
}

fn unconfined(error: io::Error) -> Failed {
    Failed::Input(format!("the process can't be confined: {error}"))
}

/// Bounds the memory by what the keyrings have. Debian's takes five times its size.
fn limit_memory(texts: &[Raw]) -> Result<(), Failed> {
    let octets: usize = texts.iter().map(Raw::length).sum();
    confinement::limit_memory(MEMORY + MEMORY_AN_OCTET * octets as u64).map_err(unconfined)
}

fn print(text: &str) -> Result<Done, Failed> {
    io::stdout().write_all(text.as_bytes())?;
    Ok(Done::Whole)
}

fn version() -> String {
    format!("wot-verdicts {} (sequoia-openpgp {})\n", env!("CARGO_PKG_VERSION"), sequoia_openpgp::VERSION)
}

fn write_script(words: &ScriptWords) -> Result<Done, Failed> {
    let begun = Instant::now();
    if words.pending && words.inputs.iter().chain(&words.with).any(|path| input::is_standard_input(path)) {
        return Err(Failed::Words("with --pending, standard input is the engine's reply, not a keyring".to_owned()));
    }
    let mut notices = Vec::new();
    let texts = read(&words.inputs, &mut notices)?;
    let others = read(&words.with, &mut notices)?;
    let jobs = words.jobs.unwrap_or_else(|| thread::available_parallelism().map_or(1, usize::from));
    limit_memory(&texts)?;
    closed()?;
    let texts = dearmored(texts, &mut notices)?;
    let others = dearmored(others, &mut notices)?;
    let pending = match words.pending {
        true => Some(pending::read(io::stdin().lock()).map_err(Failed::Input)?),
        false => None,
    };
    let certificates = keyring::without_doubles(keyring::cut(&texts, words.public, &mut notices));
    let mut script = Script::new(BufWriter::with_capacity(1 << 16, io::stdout().lock()));
    if words.certificates {
        report(&notices);
        certificates.iter().try_for_each(|certificate| script.import(certificate))?;
        script.flush()?;
        return Ok(Done::with(&notices));
    }
    let mut issuers = Issuers::default();
    certificates.iter().for_each(|certificate| issuers.add(certificate));
    // Of these only the public keys are used, whatever else is there.
    keyring::cut(&others, true, &mut notices).iter().for_each(|certificate| issuers.add(certificate));
    report(&notices);

    let end = words.seconds.map(|seconds| begun + Duration::from_secs(seconds.into()));
    let verifier = Verifier { issuers, all: words.all, pending, end };
    let counts = writing::write(&certificates, &verifier, jobs, &mut script)?;
    if script.octets >= ENGINE_INPUT {
        eprintln!("wot-verdicts: the script has {} octets, but the engine reads at most 2^30 a run", script.octets);
    }
    if words.stats {
        eprint!("{}", Stats { certificates: certificates.len(), counts, script_octets: script.octets, begun });
    }
    if counts.late > 0 {
        eprintln!("wot-verdicts: {} signatures weren't verified: their time was up", counts.late);
        return Ok(Done::Late);
    }
    Ok(Done::with(&notices))
}

fn verify_data(words: &DataWords) -> Result<Done, Failed> {
    let mut notices = Vec::new();
    let texts = read(&words.inputs, &mut notices)?;
    limit_memory(&texts)?;
    // How long the data of a pipe are, nobody knows.
    if let Some(about) = fs::metadata(&words.data).ok().filter(Metadata::is_file) {
        confinement::limit_seconds(DATA_SECONDS + about.len() / OCTETS_A_SECOND).map_err(unconfined)?;
    }
    let signed = match &words.signature {
        Some(signatures) => Signed::Detached { data: &words.data, signatures },
        None => Signed::Whole { message: &words.data, content: words.content.as_deref() },
    };
    let files = signed.files()?;
    closed()?;
    let texts = dearmored(texts, &mut notices)?;
    let certificates = keyring::without_doubles(keyring::cut(&texts, true, &mut notices));
    report(&notices);
    let opened = files.open();
    let outside = opened.outside();
    let mut output = io::stdout().lock();
    for finding in opened.findings(&Holders::of(&certificates), words.at)? {
        writeln!(output, "{finding}")?;
    }
    for (place, _) in [("before", outside.before), ("after", outside.after)].iter().filter(|(_, is_there)| *is_there) {
        writeln!(output, "outside {place}")?;
    }
    Ok(Done::with(&notices))
}

fn read(paths: &[PathBuf], notices: &mut Vec<Notice>) -> Result<Vec<Raw>, Failed> {
    input::read_raw(paths, notices).map_err(|error| Failed::Input(error.to_string()))
}

fn dearmored(texts: Vec<Raw>, notices: &mut Vec<Notice>) -> Result<Vec<Text>, Failed> {
    let texts: io::Result<_> = texts.into_iter().map(|text| text.dearmored(notices)).collect();
    texts.map_err(|error| Failed::Input(error.to_string()))
}

fn report(notices: &[Notice]) {
    notices.iter().for_each(|notice| eprintln!("wot-verdicts: {}", on_one_line(&notice.to_string())));
}
