//! What a caller names to be verified: a file of signatures with the data that they are on, or a message that has both.

use std::ffi::OsString;
use std::fs::File;
use std::io::{self, Seek, SeekFrom, Write};
use std::os::unix::io::RawFd;
use std::path::Path;

use tukyamid_verify::message::{copy_pieces, signatures_of, Message};
use tukyamid_verify::opening::Source;
use tukyamid_verify::spool;

use crate::contents::aside;
use crate::inputs::{read_signatures, Names};
use crate::words::{Call, Command};

/// Why nothing is said of the signatures, or nothing but that they can't be checked.
pub enum Failed {
    /// A file can't be read: gpg's words.
    Input(String),
    /// There is no signature in what was read.
    NoData(String),
    /// The service is away, or something else is broken.
    Broken(String),
    /// The real gpg has to do it.
    Elsewhere(Again),
}

/// Descriptors of the caller's that have been read, with files that hold the same.
pub type Again = Vec<(RawFd, File)>;

pub struct Signed {
    pub bodies: Vec<Vec<u8>>,
    pub data: Data,
    pub again: Again,
    /// What a user should know.
    pub notes: Vec<String>,
}

pub enum Data {
    /// Files that are signed one after the other.
    Apart(Vec<OsString>),
    /// What holds its signatures.
    Within(Message, File),
}

impl Signed {
    pub fn open(call: &Call, names: &Names) -> Result<Signed, Failed> {
        let (first, rest) = match call.files.split_first() {
            Some((first, rest)) => (first.clone(), rest),
            None => (OsString::from("-"), &[][..]),
        };
        let mut file = names.open(&first).map_err(|error| unopened(&first, &error))?;
        if rest.is_empty() {
            return whole(call, names, &first, file);
        }
        let octets = read_signatures(&mut file).map_err(|error| unopened(&first, &error))?;
        let mut again = Again::new();
        if let Some(number) = names.descriptor_of(&first) {
            let mut copy = aside().map_err(broken)?;
            copy.write_all(&octets).map_err(broken)?;
            again.push((number, copy));
        }
        let bodies = signatures_of(&octets).map_err(|error| Failed::NoData(error.to_string()))?;
        if bodies.is_empty() {
            return Err(Failed::NoData("there is no signature".to_owned()));
        }
        Ok(Signed { bodies, data: Data::Apart(rest.to_vec()), again, notes: Vec::new() })
    }
}

/// Of one file alone.
fn whole(call: &Call, names: &Names, name: &OsString, source: Source) -> Result<Signed, Failed> {
    let mut file = spool::of_source(source).map_err(|error| unopened(name, &error))?;
    let mut again = Again::new();
    if let Some(number) = names.descriptor_of(name) {
        again.push((number, file.try_clone().map_err(broken)?));
    }
    // gpg also decrypts; what is only verified has to be signed.
    let is_verified_alone = call.command == Command::Verify;
    let message = match Message::read(&mut file) {
        Ok(message) => message,
        Err(error) if is_verified_alone || error.raw_os_error().is_some() => return Err(unread(&error)),
        Err(_) => return Err(Failed::Elsewhere(again)),
    };
    let is_decrypted = call.command == Command::Decrypt;
    if message.signatures.is_empty() || (message.is_detached() && is_decrypted) {
        return Err(match is_verified_alone {
            true => Failed::NoData("there is no signature".to_owned()),
            false => Failed::Elsewhere(again),
        });
    }
    if message.is_detached() {
        let data = names.data_of(name).filter(|_| !call.is_batch);
        let data = data.ok_or_else(|| Failed::Input("no signed data".to_owned()))?;
        let notes = vec![format!("assuming signed data in '{}'", data.display())];
        return Ok(Signed { bodies: message.signatures, data: Data::Apart(vec![data.into()]), again, notes });
    }
    message.check().map_err(|why| Failed::NoData(why.to_owned()))?;
    let outside = message.outside();
    let notes = match outside.before || outside.after {
        true => vec!["WARNING: there is text around the signed part, which isn't signed".to_owned()],
        false => Vec::new(),
    };
    Ok(Signed { bodies: message.signatures.clone(), data: Data::Within(message, file), again, notes })
}

impl Data {
    /// Whether it has content that gpg would write.
    pub fn has_content(&self) -> bool {
        matches!(self, Data::Within(..))
    }

    pub fn is_cleartext(&self) -> bool {
        match self {
            Data::Within(message, _) => message.is_cleartext(),
            Data::Apart(_) => false,
        }
    }

    /// Opens what isn't open yet. Of several files, those that a caller may make one after another are left for later.
    pub fn opened(self, names: &Names) -> Result<Opened, Failed> {
        match self {
            Data::Apart(files) => {
                let is_one = files.len() == 1;
                let open = |name: OsString| {
                    let can_wait = !is_one && names.descriptor_of(&name).is_none() && !Path::new(&name).exists();
                    let file = (!can_wait).then(|| names.open(&name)).transpose();
                    file.map(|file| (name.clone(), file)).map_err(|error| unopened(&name, &error))
                };
                files.into_iter().map(open).collect::<Result<_, _>>().map(Opened::Apart)
            }
            Data::Within(message, file) => Ok(Opened::Within(message, file)),
        }
    }
}

/// Data whose files are open, except those that are opened only when they are read.
pub enum Opened {
    Apart(Vec<(OsString, Option<Source>)>),
    Within(Message, File),
}

impl Opened {
    /// Whether nothing more has to be opened.
    pub fn is_open(&self) -> bool {
        match self {
            Opened::Apart(files) => files.iter().all(|(_, file)| file.is_some()),
            Opened::Within(..) => true,
        }
    }

    /// Hands on all of it, piece by piece.
    pub fn feed(&mut self, names: &Names, to: &mut dyn FnMut(&[u8]) -> io::Result<()>) -> Result<(), Failed> {
        match self {
            Opened::Apart(files) => files.iter_mut().try_for_each(|(name, file)| {
                let opened = file.take().map_or_else(|| names.open(name), Ok);
                opened.and_then(|mut file| copy_pieces(&mut file, to)).map_err(|error| unopened(name, &error))
            }),
            Opened::Within(message, file) => message.copy_data(file, to).map_err(|error| unread(&error)),
        }
    }
}

/// Puts what has been read back to its beginning.
pub fn rewound(again: Again) -> io::Result<Again> {
    again.into_iter().map(|(number, mut file)| file.seek(SeekFrom::Start(0)).map(|_| (number, file))).collect()
}

pub fn broken(error: io::Error) -> Failed {
    Failed::Broken(error.to_string())
}

fn unopened(name: &OsString, error: &io::Error) -> Failed {
    Failed::Input(format!("can't read '{}': {error}", name.to_string_lossy()))
}

/// Of reading a message: of the system, or of what was read.
fn unread(error: &io::Error) -> Failed {
    match error.raw_os_error() {
        Some(_) => Failed::Input(error.to_string()),
        None => Failed::NoData(error.to_string()),
    }
}
