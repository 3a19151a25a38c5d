//! The packets of a message (RFC 9580, section 10.3), one after the other, however long the data are that it holds.

use std::io::{self, BufRead, BufReader, Read};

use flate2::bufread::{DeflateDecoder, ZlibDecoder};

use crate::packets::kind;

/// How deep compressed packets may be nested.
const DEEPEST: usize = 8;
/// How many octets the signatures of a message may have in all.
const MOST: u64 = 1 << 24;

/// What a message has.
pub trait Visitor {
    fn one_pass(&mut self, body: Vec<u8>) -> io::Result<()>;
    fn signature(&mut self, body: Vec<u8>) -> io::Result<()>;
    /// The data; what isn't read of them is skipped.
    fn literal(&mut self, data: &mut dyn Read) -> io::Result<()>;
    /// A compressed packet begins. An Err says that none belongs here.
    fn compressed(&mut self) -> io::Result<()> {
        Ok(())
    }
}

/// Visits the packets of a message. An error of kind InvalidData or UnexpectedEof says that it isn't well-formed.
pub fn walk(message: &mut dyn BufRead, visitor: &mut dyn Visitor) -> io::Result<()> {
    Walk { visitor, depth: 0, left: MOST }.packets(message)
}

struct Walk<'v> {
    visitor: &'v mut dyn Visitor,
    depth: usize,
    left: u64,
}

impl Walk<'_> {
    fn packets(&mut self, from: &mut dyn BufRead) -> io::Result<()> {
        while !from.fill_buf()?.is_empty() {
            let (packet, mut body) = Body::begin(from)?;
            match packet {
                kind::SIGNATURE => {
                    let octets = self.whole(&mut body)?;
                    self.visitor.signature(octets)?;
                }
                kind::ONE_PASS => {
                    let octets = self.whole(&mut body)?;
                    self.visitor.one_pass(octets)?;
                }
                kind::LITERAL => {
                    skip_literal_head(&mut body)?;
                    self.visitor.literal(&mut body)?;
                }
                kind::COMPRESSED => self.compressed(&mut body)?,
                kind::MARKER | kind::PADDING => {}
                other => return Err(invalid(format!("a packet of type {other} doesn't belong in a signed message"))),
            }
            io::copy(&mut body, &mut io::sink())?;
        }
        Ok(())
    }

    fn whole(&mut self, body: &mut Body) -> io::Result<Vec<u8>> {
        let mut octets = Vec::new();
        let length = body.take(self.left + 1).read_to_end(&mut octets)? as u64;
        self.left = self.left.checked_sub(length).ok_or_else(|| invalid("its signatures are too long".to_owned()))?;
        Ok(octets)
    }

    fn compressed(&mut self, body: &mut Body) -> io::Result<()> {
        if self.depth == DEEPEST {
            return Err(invalid("compressed packets are nested too deep".to_owned()));
        }
        self.visitor.compressed()?;
        let algorithm = octet(body)?;
        let packed = BufReader::new(body);
        let mut inner: Box<dyn BufRead + '_> = match algorithm {
            0 => Box::new(packed),
            1 => Box::new(BufReader::new(DeflateDecoder::new(packed))),
            2 => Box::new(BufReader::new(ZlibDecoder::new(packed))),
            other => return Err(invalid(format!("compression algorithm {other} isn't known"))),
        };
        self.depth += 1;
        self.packets(&mut *inner)?;
        self.depth -= 1;
        Ok(())
    }
}

/// The format, the file's name and a time.
fn skip_literal_head(body: &mut Body) -> io::Result<()> {
    octet(body)?;
    let mut rest = [0; 255 + 4];
    let name = usize::from(octet(body)?);
    body.read_exact(&mut rest[..name + 4])
}

fn octet(from: &mut (impl Read + ?Sized)) -> io::Result<u8> {
    let mut octet = [0];
    from.read_exact(&mut octet)?;
    Ok(octet[0])
}

fn number(from: &mut (impl Read + ?Sized), octets: usize) -> io::Result<u64> {
    (0..octets).try_fold(0, |number, _| Ok((number << 8) + u64::from(octet(from)?)))
}

fn invalid(why: String) -> io::Error {
    io::Error::new(io::ErrorKind::InvalidData, why)
}

/// The body of a packet (RFC 9580, section 4.2).
struct Body<'f> {
    from: &'f mut dyn BufRead,
    /// Of the part that is read.
    left: u64,
    then: Then,
}

/// What comes after the part that is read.
#[derive(Clone, Copy, PartialEq, Eq)]
enum Then {
    Nothing,
    Part,
    /// The body ends where the text ends.
    TextEnd,
}

impl<'f> Body<'f> {
    /// Reads the header of a packet: its type, and its body.
    fn begin(from: &'f mut dyn BufRead) -> io::Result<(u8, Body<'f>)> {
        let first = octet(from)?;
        if first & 0x80 == 0 {
            return Err(invalid("no packet begins where one should".to_owned()));
        }
        if first & 0x40 != 0 {
            let mut body = Body { from, left: 0, then: Then::Part };
            body.next_part()?;
            return Ok((first & 0x3f, body));
        }
        let body = match first & 3 {
            3 => Body { from, left: u64::MAX, then: Then::TextEnd },
            size => {
                let left = number(from, 1 << size)?;
                Body { from, left, then: Then::Nothing }
            }
        };
        Ok((first >> 2 & 0x0f, body))
    }

    fn next_part(&mut self) -> io::Result<()> {
        let first = octet(self.from)?;
        (self.left, self.then) = match first {
            0..=191 => (u64::from(first), Then::Nothing),
            192..=223 => ((u64::from(first) - 192 << 8) + u64::from(octet(self.from)?) + 192, Then::Nothing),
            224..=254 => (1 << (first & 0x1f), Then::Part),
            255 => (number(self.from, 4)?, Then::Nothing),
        };
        Ok(())
    }
}

impl Read for Body<'_> {
    fn read(&mut self, to: &mut [u8]) -> io::Result<usize> {
        while self.left == 0 && self.then == Then::Part {
            self.next_part()?;
        }
        let most = to.len().min(usize::try_from(self.left).unwrap_or(usize::MAX));
        if most == 0 {
            return Ok(0);
        }
        let length = self.from.read(&mut to[..most])?;
        if length == 0 && self.then != Then::TextEnd {
            return Err(io::ErrorKind::UnexpectedEof.into());
        }
        self.left -= length as u64;
        Ok(length)
    }
}
