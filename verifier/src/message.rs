//! Messages that hold both data and the signatures on them, taken apart.

use std::fs::File;
use std::io::{self, BufRead, BufReader, Read, Seek, SeekFrom, Take};

use sequoia_openpgp::armor::{Reader, ReaderMode};

use crate::cleartext;
use crate::input::armored_blocks;
use crate::layout::{Layout, Outside};
use crate::packets::{kind, Packets};
use crate::signature::kind::TEXT;
use crate::signature::Signature;
use crate::walk::{walk, Visitor};

/// How many signatures there may be on one file: each can take some 10 ms to verify.
const MOST: usize = 1000;

pub struct Message {
    /// None if it is binary.
    layout: Option<Layout>,
    one_passes: Vec<Vec<u8>>,
    /// The bodies of the signatures, in their order.
    pub signatures: Vec<Vec<u8>>,
    literals: usize,
    /// How many signatures come before the data.
    before: usize,
}

impl Message {
    /// Reads all but the data, of a file at its beginning. An error of the system aside, an Err says that it isn't
    /// well-formed.
    pub fn read(file: &mut File) -> io::Result<Message> {
        let mut reader = BufReader::new(&mut *file);
        let is_binary = reader.fill_buf()?.first().map_or(false, |first| first & 0x80 != 0);
        let layout = if is_binary { None } else { Some(Layout::read(&mut reader)?) };
        let mut message = Message { layout, one_passes: vec![], signatures: vec![], literals: 0, before: 0 };
        if message.is_cleartext() {
            let armored = cleartext::take_apart(&mut message.text(file)?, &mut |_| Ok(()))?;
            message.signatures = signatures_of(&armored)?;
        } else {
            walk(&mut *message.packets(file)?, &mut message)?;
        }
        Ok(message)
    }

    pub fn is_cleartext(&self) -> bool {
        self.layout.map_or(false, |layout| layout.is_cleartext)
    }

    /// What is around it, unsigned.
    pub fn outside(&self) -> Outside {
        self.layout.map_or_else(Outside::default, |layout| layout.outside)
    }

    /// Its octets alone: those of its armored block, if it has one.
    pub fn text<'f>(&self, file: &'f mut File) -> io::Result<BufReader<Take<&'f mut File>>> {
        let (begin, end) = self.layout.map_or((0, u64::MAX), |layout| (layout.begin, layout.end));
        file.seek(SeekFrom::Start(begin))?;
        Ok(BufReader::new(file.take(end - begin)))
    }

    /// Its packets, out of its armor.
    fn packets<'f>(&self, file: &'f mut File) -> io::Result<Box<dyn BufRead + 'f>> {
        let text = self.text(file)?;
        Ok(match self.layout {
            None => Box::new(text),
            Some(_) => Box::new(BufReader::new(Reader::from_reader(text, ReaderMode::Tolerant(None)))),
        })
    }

    /// Whether there are signatures without data.
    pub fn is_detached(&self) -> bool {
        !self.is_cleartext() && self.literals == 0 && self.one_passes.is_empty() && !self.signatures.is_empty()
    }

    /// Whether signatures and data are ordered as they should be (RFC 9580, section 10.3): an Err says what is wrong.
    pub fn check(&self) -> Result<(), &'static str> {
        let (passes, signatures) = (&self.one_passes, &self.signatures);
        if self.is_cleartext() {
            let is_text = |body: &Vec<u8>| Signature::read(body).map_or(true, |one| one.kind == TEXT);
            return if signatures.iter().all(is_text) { Ok(()) } else { Err("a signature that isn't on text") };
        }
        if self.literals != 1 {
            return Err("a signed message has data more than once");
        }
        if passes.is_empty() {
            let is_before = self.before == signatures.len();
            return if is_before { Ok(()) } else { Err("a signature after the data has no one-pass signature") };
        }
        if passes.len() != signatures.len() || self.before != 0 {
            return Err("there aren't as many signatures as one-pass signatures");
        }
        // Only the last is marked: others would be over the message inside them, and not over the data.
        let marks = passes.iter().map(|pass| pass.last() != Some(&0));
        if !marks.eq((1..=passes.len()).map(|place| place == passes.len())) {
            return Err("a signature on signatures");
        }
        let pairs = passes.iter().rev().zip(signatures);
        match pairs.into_iter().all(|(pass, signature)| is_announced(pass, signature)) {
            true => Ok(()),
            false => Err("a signature doesn't match its one-pass signature"),
        }
    }

    /// Hands on the data, piece by piece, from the same file.
    pub fn copy_data(&self, file: &mut File, to: &mut dyn FnMut(&[u8]) -> io::Result<()>) -> io::Result<()> {
        if self.is_cleartext() {
            return cleartext::take_apart(&mut self.text(file)?, to).map(drop);
        }
        walk(&mut *self.packets(file)?, &mut Copy { to })
    }
}

impl Visitor for Message {
    fn one_pass(&mut self, body: Vec<u8>) -> io::Result<()> {
        self.one_passes.push(body);
        Ok(())
    }

    fn signature(&mut self, body: Vec<u8>) -> io::Result<()> {
        if self.signatures.len() == MOST {
            return Err(invalid("too many signatures"));
        }
        self.before += usize::from(self.literals == 0);
        self.signatures.push(body);
        Ok(())
    }

    fn literal(&mut self, _: &mut dyn Read) -> io::Result<()> {
        self.literals += 1;
        Ok(())
    }

    /// Other programs take a signature around it for one on the packet, and not on the data inside.
    fn compressed(&mut self) -> io::Result<()> {
        match self.one_passes.is_empty() && self.signatures.is_empty() {
            true => Ok(()),
            false => Err(invalid("a signature on a compressed packet")),
        }
    }
}

struct Copy<'t> {
    to: &'t mut dyn FnMut(&[u8]) -> io::Result<()>,
}

impl Visitor for Copy<'_> {
    fn one_pass(&mut self, _: Vec<u8>) -> io::Result<()> {
        Ok(())
    }

    fn signature(&mut self, _: Vec<u8>) -> io::Result<()> {
        Ok(())
    }

    fn literal(&mut self, data: &mut dyn Read) -> io::Result<()> {
        copy_pieces(data, self.to)
    }
}

/// Hands on all that can be read, piece by piece.
pub fn copy_pieces(from: &mut dyn Read, to: &mut dyn FnMut(&[u8]) -> io::Result<()>) -> io::Result<()> {
    let mut piece = vec![0; 1 << 16];
    loop {
        match from.read(&mut piece) {
            Ok(0) => return Ok(()),
            Ok(length) => to(&piece[..length])?,
            Err(error) if error.kind() == io::ErrorKind::Interrupted => {}
            Err(error) => return Err(error),
        }
    }
}

/// The bodies of the signatures of a text of packets, binary or in armored blocks; an Err if it holds anything else.
pub fn signatures_of(text: &[u8]) -> io::Result<Vec<Vec<u8>>> {
    let mut octets = Vec::new();
    if text.first().map_or(false, |first| first & 0x80 != 0) {
        octets.extend_from_slice(text);
    } else {
        let blocks = armored_blocks(text);
        if blocks.is_empty() {
            return Err(invalid("no armored text begins here"));
        }
        for (_, block) in blocks {
            if block.split_inclusive(|octet| *octet == b'\n').next().map_or(false, cleartext::is_begun_by) {
                return Err(invalid("a text with a cleartext signature, which isn't on other data"));
            }
            Reader::from_bytes(block, ReaderMode::Tolerant(None)).read_to_end(&mut octets)?;
        }
    }
    let mut signatures = Vec::new();
    for packet in Packets::new(&octets) {
        match packet {
            Ok(_) if signatures.len() == MOST => return Err(invalid("too many signatures")),
            Ok(packet) if packet.kind == kind::SIGNATURE => signatures.push(packet.body.into_owned()),
            Ok(packet) if matches!(packet.kind, kind::MARKER | kind::PADDING) => {}
            Ok(_) => return Err(invalid("a packet that isn't a signature")),
            Err(_) => return Err(invalid("a packet that is cut short")),
        }
    }
    Ok(signatures)
}

/// Whether a one-pass signature announces a signature: by version, type, algorithms, and in version 6 by the salt.
fn is_announced(pass: &[u8], signature: &[u8]) -> bool {
    let signature = match Signature::read(signature) {
        Some(signature) => signature,
        None => return false,
    };
    let (version, rest) = match signature.version {
        6 => (6, [&[signature.salt.len() as u8][..], signature.salt].concat()),
        _ => (3, vec![]),
    };
    let front = [&[version, signature.kind, signature.hash_algorithm, signature.key_algorithm][..], &rest].concat();
    pass.starts_with(&front)
}

fn invalid(why: &str) -> io::Error {
    io::Error::new(io::ErrorKind::InvalidData, why)
}
