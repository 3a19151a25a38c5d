//! Signatures on the same data, of which the library verifies some and this program the others.

use std::io::{self, Cursor, Read};

use crate::data::Stop;
use crate::finding::{Finding, Word};
use crate::library::Library;
use crate::own::{Begun, OwnVerifier};
use crate::packets::{self, kind};

pub struct Mixed<'s> {
    library: Library<'s>,
    parts: Vec<Part<'s>>,
}

enum Part<'s> {
    Mine(Begun<'s>),
    /// The library's: its body.
    Other(&'s [u8]),
}

impl<'s> Mixed<'s> {
    /// Of the bodies of signatures, to be verified at a time.
    pub fn new(bodies: &'s [Vec<u8>], library: Library<'s>, time: u64) -> Mixed<'s> {
        let mut verifier = OwnVerifier::new(library.holders, time);
        let part = |body: &'s Vec<u8>| match OwnVerifier::is_mine(library.holders, body) {
            true => Part::Mine(verifier.begin(body)),
            false => Part::Other(body),
        };
        Mixed { library, parts: bodies.iter().map(part).collect() }
    }

    /// Whether this program verifies any.
    pub fn has_mine(&self) -> bool {
        self.parts.iter().any(|part| matches!(part, Part::Mine(_)))
    }

    /// Whether the library verifies any, so that it has to read the data too.
    pub fn has_others(&self) -> bool {
        self.parts.iter().any(|part| matches!(part, Part::Other(_)))
    }

    /// Takes a piece of the data.
    pub fn update(&mut self, octets: &[u8]) -> io::Result<()> {
        for part in &mut self.parts {
            if let Part::Mine(Begun::Waiting(waiting)) = part {
                waiting.update(octets);
            }
        }
        Ok(())
    }

    /// What each signature comes to, in their order. `data` are the data once more, for the library.
    pub fn findings(self, data: impl Read + Send + Sync) -> Result<Vec<Finding>, Stop> {
        let mut others = match self.has_others() {
            true => self.others(data)?.into_iter(),
            false => Vec::new().into_iter(),
        };
        let mut findings = Vec::new();
        for part in self.parts {
            match part {
                Part::Mine(Begun::Decided(finding)) => findings.push(finding),
                Part::Mine(Begun::Waiting(waiting)) => findings.push(waiting.finding()),
                Part::Other(_) => findings.extend(others.next()),
            }
        }
        findings.extend(others);
        Ok(findings)
    }

    /// What the library says of its signatures.
    fn others(&self, data: impl Read + Send + Sync) -> Result<Vec<Finding>, Stop> {
        let mut octets = Vec::new();
        for part in &self.parts {
            if let Part::Other(body) = part {
                packets::write(kind::SIGNATURE, body, &mut octets);
            }
        }
        match self.library.detached(Cursor::new(octets), data) {
            Err(Stop::Malformed(error)) => Ok(vec![Finding::unread(Word::Malformed, &error)]),
            other => other,
        }
    }
}
