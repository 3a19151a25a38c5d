//! Signatures on data: whether each is good, and by which key of which certificate. The library verifies most of them,
//! and this program those that the library can't (`own`).

use std::io::{self, Seek, Write};
use std::path::Path;
use std::time::{SystemTime, UNIX_EPOCH};

use crate::files::{broken, octets, unwritten, Data, Whole};
use crate::finding::{Finding, Word};
use crate::holders::Holders;
use crate::layout::Outside;
use crate::library::Library;
use crate::message::{copy_pieces, signatures_of, Message};
use crate::mixed::Mixed;
use crate::own::OwnVerifier;
use crate::said::Said;

/// Detached signatures are held in memory. Longer ones are refused.
const LONGEST_SIGNATURES: u64 = 1 << 24;

/// What is signed, and where its signatures are.
pub enum Signed<'p> {
    Detached { data: &'p Path, signatures: &'p Path },
    /// A message or a text that holds its signatures. What is signed is written to a new file, if one is named.
    Whole { message: &'p Path, content: Option<&'p Path> },
}

/// Why nothing is said of the signatures.
#[derive(Debug)]
pub enum Broken {
    Input(String),
    Output(String),
}

impl From<Broken> for Stop {
    fn from(broken: Broken) -> Stop {
        Stop::Broken(broken)
    }
}

/// Why reading stopped.
pub enum Stop {
    Malformed(anyhow::Error),
    Broken(Broken),
}

/// An error of the system isn't one of what was read.
impl From<anyhow::Error> for Stop {
    fn from(error: anyhow::Error) -> Stop {
        match error.downcast_ref::<io::Error>().and_then(io::Error::raw_os_error) {
            Some(_) => Stop::Broken(Broken::Input(error.to_string())),
            None => Stop::Malformed(error),
        }
    }
}

impl<'p> Signed<'p> {
    /// Opens all of its files. What they hold isn't looked at yet.
    pub fn files(self) -> Result<Files<'p>, Broken> {
        match self {
            Signed::Detached { data, signatures } => {
                let signatures = octets(signatures, LONGEST_SIGNATURES + 1)?;
                Ok(Files::Detached { data: Data::open(data)?, signatures })
            }
            Signed::Whole { message, content } => Whole::open(message, content).map(Files::Whole),
        }
    }

    /// Reads the signatures, so that their issuers are known before certificates are there.
    pub fn open(self) -> Result<Opened<'p>, Broken> {
        Ok(self.files()?.open())
    }
}

/// The files of data and of their signatures, open.
pub enum Files<'p> {
    /// The text of the signatures, and the data.
    Detached { data: Data<'p>, signatures: Vec<u8> },
    Whole(Whole<'p>),
}

impl<'p> Files<'p> {
    /// Reads the signatures.
    pub fn open(self) -> Opened<'p> {
        Opened(match self {
            Files::Detached { data, signatures } => {
                let bodies = match signatures.len() as u64 > LONGEST_SIGNATURES {
                    true => Err(io::Error::new(io::ErrorKind::InvalidData, "the signatures are too long")),
                    false => signatures_of(&signatures),
                };
                Form::Detached { data, bodies }
            }
            Files::Whole(mut whole) => {
                let message = Message::read(&mut whole.file);
                Form::Whole { whole, message }
            }
        })
    }
}

/// Data and their signatures, of which the signatures are read.
pub struct Opened<'p>(Form<'p>);

enum Form<'p> {
    /// The bodies of the signatures; an Err says why they aren't well-formed.
    Detached { data: Data<'p>, bodies: io::Result<Vec<Vec<u8>>> },
    /// An Err says why it isn't well-formed.
    Whole { whole: Whole<'p>, message: io::Result<Message> },
}

impl Opened<'_> {
    /// What each signature says of itself, in their order, as far as that can be read. Empty if the signatures, or the
    /// message that holds them, aren't well-formed.
    pub fn said(&self) -> Vec<Said> {
        let bodies = match &self.0 {
            Form::Detached { bodies, .. } => bodies.as_deref().unwrap_or_default(),
            Form::Whole { message, .. } => message.as_ref().map_or(&[][..], |message| &message.signatures),
        };
        bodies.iter().filter_map(|body| Said::of(body)).collect()
    }

    /// What is around a message or a text with a cleartext signature: nobody signed it.
    pub fn outside(&self) -> Outside {
        match &self.0 {
            Form::Whole { message: Ok(message), .. } => message.outside(),
            _ => Outside::default(),
        }
    }

    /// What each signature comes to, as [`Signed::findings`] has it.
    pub fn findings(self, holders: &Holders, at: Option<u32>) -> Result<Vec<Finding>, Broken> {
        let library = Library { holders, at };
        let findings = match self.0 {
            Form::Detached { data, bodies } => detached(data, bodies, library),
            Form::Whole { whole, message } => of_whole(whole, message, library),
        };
        match findings {
            Ok(findings) => Ok(findings),
            Err(Stop::Malformed(error)) => Ok(vec![Finding::unread(Word::Malformed, &error)]),
            Err(Stop::Broken(broken)) => Err(broken),
        }
    }
}

fn detached(data: Data, bodies: io::Result<Vec<Vec<u8>>>, library: Library) -> Result<Vec<Finding>, Stop> {
    let bodies = bodies.map_err(|error| Stop::Malformed(error.into()))?;
    if bodies.is_empty() {
        return Err(Stop::Malformed(anyhow::anyhow!("there is no signature")));
    }
    let mut mixed = Mixed::new(&bodies, library, time(library.at));
    if !mixed.has_mine() {
        return mixed.findings(data.once());
    }
    if !mixed.has_others() {
        let path = data.path();
        copy_pieces(&mut *data.once(), &mut |piece| mixed.update(piece)).map_err(|error| broken(path, error))?;
        return mixed.findings(io::empty());
    }
    let again = data.twice(&mut |piece| mixed.update(piece))?;
    mixed.findings(again)
}

/// The library takes apart messages whose signatures it knows, unless they are texts with a cleartext signature: it
/// lets more pass around these than RFC 9580 does.
fn of_whole(mut whole: Whole, message: io::Result<Message>, library: Library) -> Result<Vec<Finding>, Stop> {
    let message = message.map_err(|error| named(whole.path, error))?;
    if message.is_cleartext() || message.signatures.iter().any(|body| OwnVerifier::is_mine(library.holders, body)) {
        message.check().map_err(|why| Stop::Malformed(anyhow::anyhow!(why)))?;
        return taken_apart(&message, whole, library);
    }
    let text = message.text(&mut whole.file).map_err(|error| named(whole.path, error))?;
    let content = &mut whole.content;
    let findings = library.whole(text, &mut |piece| content.write(piece))?;
    content.finish().map(|()| findings)
}

/// Verifies the signatures of a message as if they were detached from its data.
fn taken_apart(message: &Message, whole: Whole, library: Library) -> Result<Vec<Finding>, Stop> {
    let Whole { path, mut file, spare, mut content } = whole;
    let unspared = |error| unwritten(Path::new("a temporary file"), error);
    let mut mixed = Mixed::new(&message.signatures, library, time(library.at));
    let mut copy = if mixed.has_others() { Some(spare.map_err(unspared)?) } else { None };
    let mut stop = None;
    let copied = message.copy_data(&mut file, &mut |piece| {
        mixed.update(piece)?;
        let written = content.write(piece).and_then(|()| match &mut copy {
            Some(copy) => copy.write_all(piece).map_err(|error| unspared(error).into()),
            None => Ok(()),
        });
        written.map_err(|error| {
            stop = Some(error);
            io::ErrorKind::Other.into()
        })
    });
    if let Some(stop) = stop {
        return Err(stop);
    }
    copied.map_err(|error| named(path, error))?;
    content.finish()?;
    match copy {
        Some(mut copy) => copy.rewind().map_err(unspared).map_err(Stop::from).and_then(|()| mixed.findings(copy)),
        None => mixed.findings(io::empty()),
    }
}

/// Seconds since 1970, of a given time or the current one.
fn time(at: Option<u32>) -> u64 {
    let now = || SystemTime::now().duration_since(UNIX_EPOCH).map_or(0, |since| since.as_secs());
    at.map_or_else(now, u64::from)
}

/// An error in reading a message: of the system, or of what was read.
fn named(path: &Path, error: io::Error) -> Stop {
    match error.raw_os_error() {
        Some(_) => Stop::Broken(broken(path, error)),
        None => Stop::Malformed(error.into()),
    }
}
