//! Files and folders as texts of packets, out of their armor.

use std::fmt::Display;
use std::fs::{self, OpenOptions};
use std::io::{self, Read};
use std::os::unix::fs::OpenOptionsExt;
use std::path::{Path, PathBuf};

use sequoia_openpgp::armor::{Kind, Reader, ReaderMode};

use crate::notice::{Notice, What};
use crate::opening;

/// How many octets are read of a file: as many as the service reads of a watched keyring.
const MOST_OCTETS: u64 = 512 << 20;
/// The octets of a certificate directory's files in all.
const MOST_OF_FOLDER: u64 = 512 << 20;

/// Octets that are packets, and where they come from.
pub struct Text {
    pub name: String,
    pub octets: Vec<u8>,
    /// The fingerprint under which a certificate directory has it, in lower-case digits.
    pub filed: Option<String>,
}

/// A text as its file has it, maybe armored.
pub struct Raw(Text);

/// The texts of these files and certificate directories, in the order of the words and of the files' names.
pub fn read_all(paths: &[PathBuf], notices: &mut Vec<Notice>) -> io::Result<Vec<Text>> {
    let raw = read_raw(paths, notices)?;
    raw.into_iter().map(|one| one.dearmored(notices)).collect()
}

/// The texts as they are. So nothing that they say is looked at before all are read.
pub fn read_raw(paths: &[PathBuf], notices: &mut Vec<Notice>) -> io::Result<Vec<Raw>> {
    let mut texts = Vec::new();
    for path in paths {
        let read = if path.is_dir() {
            read_folder(path, notices, &mut texts)
        } else {
            read_file(path).map(|text| texts.push(text))
        };
        read.map_err(|error| named(&path.display(), error))?;
    }
    Ok(texts)
}

impl Raw {
    pub fn length(&self) -> usize {
        self.0.octets.len()
    }

    /// The text out of its armor.
    pub fn dearmored(self, notices: &mut Vec<Notice>) -> io::Result<Text> {
        let Text { name, octets, filed } = self.0;
        let octets = match octets.first() {
            None => octets,
            Some(first) if first & 0x80 != 0 => octets,
            Some(_) => dearmored(&octets, &mut |place, what| notices.push(Notice { name: name.clone(), place, what }))
                .map_err(|error| named(&name, error))?,
        };
        Ok(Text { name, octets, filed })
    }
}

fn named(name: &dyn Display, error: io::Error) -> io::Error {
    io::Error::new(error.kind(), format!("{name}: {error}"))
}

/// A certificate directory: folders named by the first two digits of a fingerprint, files by the others, and the
/// special name `trust-root`.
fn read_folder(folder: &Path, notices: &mut Vec<Notice>, texts: &mut Vec<Raw>) -> io::Result<()> {
    let before = texts.len();
    let mut left = MOST_OF_FOLDER;
    let root = folder.join("trust-root");
    if root.is_file() {
        texts.push(read_entry(&root, None, &mut left)?);
    }
    for front in names(folder, &[2])? {
        let inner = folder.join(&front);
        if !inner.is_dir() {
            continue;
        }
        for rest in names(&inner, &[38, 62])? {
            texts.push(read_entry(&inner.join(&rest), Some(format!("{front}{rest}")), &mut left)?);
        }
    }
    if texts.len() == before {
        notices.push(Notice { name: folder.display().to_string(), place: 0, what: What::Empty });
    }
    Ok(())
}

/// The names in a folder that are lower-case digits of these lengths, in their order.
fn names(folder: &Path, lengths: &[usize]) -> io::Result<Vec<String>> {
    let mut names = Vec::new();
    for entry in fs::read_dir(folder)? {
        let name = entry?.file_name();
        let digits = name.to_str().filter(|name| {
            lengths.contains(&name.len()) && name.bytes().all(|octet| matches!(octet, b'0'..=b'9' | b'a'..=b'f'))
        });
        names.extend(digits.map(str::to_owned));
    }
    names.sort();
    Ok(names)
}

/// Whether a path means standard input.
pub fn is_standard_input(path: &Path) -> bool {
    path == Path::new("-")
}

/// A file of a certificate directory. `left` is what its files may still have. Nothing but a file is read: a FIFO has
/// maybe nobody who writes to it.
fn read_entry(path: &Path, filed: Option<String>, left: &mut u64) -> io::Result<Raw> {
    let name = path.display().to_string();
    let read = || {
        let file = OpenOptions::new().read(true).custom_flags(libc::O_NONBLOCK | libc::O_NOCTTY).open(path)?;
        let about = file.metadata()?;
        if !about.is_file() {
            return Err(invalid("it isn't a regular file"));
        }
        read_bounded(file, about.len())
    };
    let octets = read().map_err(|error| named(&name, error))?;
    *left = left.checked_sub(octets.len() as u64).ok_or_else(|| invalid("its files have more than 512 MiB"))?;
    Ok(Raw(Text { name, octets, filed }))
}

fn read_file(path: &Path) -> io::Result<Raw> {
    let octets = if is_standard_input(path) {
        read_bounded(io::stdin().lock(), 0)?
    } else {
        let source = opening::open(path)?;
        let size = source.metadata()?.len();
        read_bounded(source, size)?
    };
    Ok(Raw(Text { name: path.display().to_string(), octets, filed: None }))
}

/// Reads to the end, unless that is too far: a device may have no end. `size` is what to expect.
fn read_bounded(file: impl Read, size: u64) -> io::Result<Vec<u8>> {
    let mut octets = Vec::with_capacity(size.min(MOST_OCTETS) as usize);
    file.take(MOST_OCTETS + 1).read_to_end(&mut octets)?;
    if octets.len() as u64 > MOST_OCTETS {
        return Err(invalid("it has more than 512 MiB; give it in several files"));
    }
    Ok(octets)
}

/// The packets of all armored keys of a text.
fn dearmored(text: &[u8], report: &mut impl FnMut(usize, What)) -> io::Result<Vec<u8>> {
    if text.get(8..12) == Some(b"KBXf") {
        return Err(invalid("a keybox; write its keys with `gpg --export`"));
    }
    let blocks = armored_blocks(text);
    if blocks.is_empty() {
        return Err(invalid("neither packets nor armored packets"));
    }
    let mut packets = Vec::new();
    for (place, block) in blocks {
        let mut reader = Reader::from_bytes(block, ReaderMode::Tolerant(None));
        let mut octets = Vec::new();
        match reader.read_to_end(&mut octets) {
            Ok(_) if matches!(reader.kind(), Some(Kind::PublicKey | Kind::SecretKey)) => packets.append(&mut octets),
            Ok(_) => report(place, What::Armor("it holds no keys".to_owned())),
            Err(error) => report(place, What::Armor(error.to_string())),
        }
    }
    Ok(packets)
}

fn invalid(why: &str) -> io::Error {
    io::Error::new(io::ErrorKind::InvalidData, why)
}

/// The armored blocks of a text, each from the line that begins it to the line that ends it, with their places.
pub fn armored_blocks(text: &[u8]) -> Vec<(usize, &[u8])> {
    let mut blocks = Vec::new();
    let mut begun = None;
    let mut at = 0;
    for line in text.split_inclusive(|octet| *octet == b'\n') {
        if line.starts_with(b"-----BEGIN PGP ") {
            blocks.extend(begun.map(|begin| (begin, &text[begin..at])));
            begun = Some(at);
        }
        at += line.len();
        if line.starts_with(b"-----END PGP ") {
            blocks.extend(begun.take().map(|begin| (begin, &text[begin..at])));
        }
    }
    blocks.extend(begun.map(|begin| (begin, &text[begin..])));
    blocks
}

#[cfg(test)]
mod tests {
    use super::*;

    #[test]
    fn blocks_are_cut_at_their_lines() {
        let blocks = [
            "-----BEGIN PGP A-----\n1\n-----END PGP A-----\n",
            "-----BEGIN PGP B-----\n2\n",
            "-----BEGIN PGP C-----\n3",
        ];
        let text = format!("before\n{}between\n{}{}", blocks[0], blocks[1], blocks[2]);
        let expected: Vec<_> = blocks.iter().map(|block| (text.find(block).unwrap(), block.as_bytes())).collect();
        assert_eq!(armored_blocks(text.as_bytes()), expected);
    }

    #[test]
    fn a_file_that_is_no_keyring_says_so() {
        for text in [&b"hello"[..], b"\0\0\0 \x01\x01\0\x02KBXf"] {
            assert!(dearmored(text, &mut |_, _| ()).is_err());
        }
    }
}
