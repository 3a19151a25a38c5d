//! Packet framing (RFC 9580, section 4.2): a text of octets is cut into packets, each with its octets unchanged.

use std::borrow::Cow;
use std::fmt;

/// The types of packets that this program asks for by name (RFC 9580, section 5).
pub mod kind {
    pub const SIGNATURE: u8 = 2;
    pub const ONE_PASS: u8 = 4;
    pub const SECRET_KEY: u8 = 5;
    pub const KEY: u8 = 6;
    pub const SECRET_SUBKEY: u8 = 7;
    pub const COMPRESSED: u8 = 8;
    pub const MARKER: u8 = 10;
    pub const LITERAL: u8 = 11;
    pub const USER_ID: u8 = 13;
    pub const SUBKEY: u8 = 14;
    pub const ATTRIBUTE: u8 = 17;
    pub const PADDING: u8 = 21;
}

/// How a packet is spelled when it is written.
#[derive(Clone, Copy, Debug, PartialEq, Eq)]
enum Spelling<'a> {
    /// By its own octets, header and body.
    Own(&'a [u8]),
    /// By a header of our own with a definite length, and the body.
    New,
}

#[derive(Clone, Debug, PartialEq, Eq)]
pub struct Packet<'a> {
    pub kind: u8,
    pub body: Cow<'a, [u8]>,
    /// Where the packet begins in its text.
    pub place: usize,
    spelling: Spelling<'a>,
}

impl<'a> Packet<'a> {
    /// Whether the packet had a partial or indeterminate length, so that it isn't written unchanged.
    pub fn is_respelled(&self) -> bool {
        self.spelling == Spelling::New
    }

    /// This packet with another type and a front of its body.
    pub fn cut_to(self, kind: u8, length: usize) -> Packet<'a> {
        let body = match self.body {
            Cow::Borrowed(body) => Cow::Borrowed(&body[..length]),
            Cow::Owned(mut body) => {
                body.truncate(length);
                Cow::Owned(body)
            }
        };
        Packet { kind, body, place: self.place, spelling: Spelling::New }
    }

    /// Appends the packet: its own octets, or the OpenPGP format with the shortest length.
    pub fn write(&self, to: &mut Vec<u8>) {
        match self.spelling {
            Spelling::Own(octets) => to.extend_from_slice(octets),
            Spelling::New => write(self.kind, &self.body, to),
        }
    }
}

/// Appends a packet of this type and body.
pub fn write(kind: u8, body: &[u8], to: &mut Vec<u8>) {
    to.push(0xc0 | kind);
    write_length(body.len(), to);
    to.extend_from_slice(body);
}

fn write_length(length: usize, to: &mut Vec<u8>) {
    match length {
        0..=191 => to.push(length as u8),
        192..=8383 => {
            let rest = length - 192;
            to.extend_from_slice(&[(rest >> 8) as u8 + 192, rest as u8]);
        }
        _ => {
            to.push(255);
            to.extend_from_slice(&(length as u32).to_be_bytes());
        }
    }
}

/// The first place at which a text has no packet.
#[derive(Clone, Copy, Debug, PartialEq, Eq)]
pub struct Fault {
    pub place: usize,
    pub why: Why,
}

#[derive(Clone, Copy, Debug, PartialEq, Eq)]
pub enum Why {
    NotAPacket,
    CutLength,
    CutBody,
}

impl fmt::Display for Fault {
    fn fmt(&self, f: &mut fmt::Formatter<'_>) -> fmt::Result {
        let why = match self.why {
            Why::NotAPacket => "there is no packet",
            Why::CutLength => "a packet ends within its length",
            Why::CutBody => "a packet ends within its body",
        };
        write!(f, "{why} at octet {}", self.place)
    }
}

/// The packets of a text in their order; a fault is the last item.
pub struct Packets<'a> {
    text: &'a [u8],
    at: usize,
}

impl<'a> Packets<'a> {
    pub fn new(text: &'a [u8]) -> Packets<'a> {
        Packets { text, at: 0 }
    }

    fn packet(&mut self) -> Result<Packet<'a>, Why> {
        let place = self.at;
        let first = self.octet(Why::CutLength)?;
        if first & 0x80 == 0 {
            return Err(Why::NotAPacket);
        }
        let (kind, length) = if first & 0x40 != 0 {
            (first & 0x3f, self.openpgp_length()?)
        } else {
            ((first >> 2) & 0x0f, self.legacy_length(first & 3)?)
        };
        let (body, spelling) = match length {
            Length::Definite(length) => {
                let body = self.take(length, Why::CutBody)?;
                (Cow::Borrowed(body), Spelling::Own(&self.text[place..self.at]))
            }
            Length::Partial(length) => (Cow::Owned(self.partial_body(length)?), Spelling::New),
            Length::Indeterminate => {
                let rest = self.text.len() - self.at;
                (Cow::Borrowed(self.take(rest, Why::CutBody)?), Spelling::New)
            }
        };
        Ok(Packet { kind, body, place, spelling })
    }

    /// The body of a packet whose first part has this length.
    fn partial_body(&mut self, first: usize) -> Result<Vec<u8>, Why> {
        let mut body = self.take(first, Why::CutBody)?.to_vec();
        loop {
            match self.openpgp_length()? {
                Length::Partial(length) => body.extend_from_slice(self.take(length, Why::CutBody)?),
                Length::Definite(length) => {
                    body.extend_from_slice(self.take(length, Why::CutBody)?);
                    return Ok(body);
                }
                Length::Indeterminate => unreachable!("this format has no indeterminate lengths"),
            }
        }
    }

    fn openpgp_length(&mut self) -> Result<Length, Why> {
        let first = self.octet(Why::CutLength)?;
        Ok(match first {
            0..=191 => Length::Definite(first as usize),
            192..=223 => {
                let second = self.octet(Why::CutLength)?;
                Length::Definite(((first as usize - 192) << 8) + second as usize + 192)
            }
            224..=254 => Length::Partial(1 << (first & 0x1f)),
            255 => Length::Definite(self.number(4)?),
        })
    }

    fn legacy_length(&mut self, length_type: u8) -> Result<Length, Why> {
        match length_type {
            3 => Ok(Length::Indeterminate),
            _ => self.number(1 << length_type).map(Length::Definite),
        }
    }

    /// A big-endian number of this many octets.
    fn number(&mut self, octets: usize) -> Result<usize, Why> {
        let digits = self.take(octets, Why::CutLength)?;
        Ok(digits.iter().fold(0, |number, digit| (number << 8) + *digit as usize))
    }

    fn octet(&mut self, why: Why) -> Result<u8, Why> {
        self.take(1, why).map(|octets| octets[0])
    }

    fn take(&mut self, octets: usize, why: Why) -> Result<&'a [u8], Why> {
        let rest = &self.text[self.at..];
        let taken = rest.get(..octets).ok_or(why)?;
        self.at += octets;
        Ok(taken)
    }
}

enum Length {
    Definite(usize),
    Partial(usize),
    Indeterminate,
}

impl<'a> Iterator for Packets<'a> {
    type Item = Result<Packet<'a>, Fault>;

    fn next(&mut self) -> Option<Self::Item> {
        if self.at == self.text.len() {
            return None;
        }
        let place = self.at;
        let packet = self.packet();
        if packet.is_err() {
            self.at = self.text.len();
        }
        Some(packet.map_err(|why| Fault { place, why }))
    }
}

#[cfg(test)]
mod tests {
    use super::*;

    fn written(packet: &Packet) -> Vec<u8> {
        let mut octets = Vec::new();
        packet.write(&mut octets);
        octets
    }

    #[test]
    fn definite_lengths_are_written_unchanged() {
        let spellings: [&[u8]; 6] = [
            &[0xcd, 2, 7, 8],
            &[0xcd, 255, 0, 0, 0, 2, 7, 8],
            &[0xb4, 2, 7, 8],
            &[0xb5, 0, 2, 7, 8],
            &[0xb6, 0, 0, 0, 2, 7, 8],
            &[0xcd, 0],
        ];
        for spelling in spellings {
            let packets: Vec<_> = Packets::new(spelling).map(Result::unwrap).collect();
            assert_eq!(packets.len(), 1);
            assert_eq!((packets[0].kind, packets[0].is_respelled()), (kind::USER_ID, false));
            assert_eq!(written(&packets[0]), spelling);
        }
        let long = [&[0xcd, 193, 10][..], &[1; 458]].concat();
        let packet = Packets::new(&long).next().unwrap().unwrap();
        assert_eq!((packet.body.len(), written(&packet)), (458, long.clone()));
    }

    #[test]
    fn partial_and_indeterminate_lengths_are_respelled() {
        for spelling in [&[0xcd, 225, 7, 8, 224, 9, 1, 5][..], &[0xb7, 7, 8, 9, 5]] {
            let packet = Packets::new(spelling).next().unwrap().unwrap();
            assert!(packet.is_respelled());
            assert_eq!(written(&packet), [0xcd, 4, 7, 8, 9, 5]);
        }
    }

    #[test]
    fn new_lengths_are_the_shortest() {
        for (length, header) in
            [(191, &[191][..]), (192, &[192, 0]), (8383, &[223, 255]), (8384, &[255, 0, 0, 0x20, 0xc0])]
        {
            let mut octets = Vec::new();
            write_length(length, &mut octets);
            assert_eq!(octets, header);
        }
    }

    #[test]
    fn a_fault_is_the_last_item() {
        for (text, place, why) in [
            (&[0xcd, 0, 0x4d, 0][..], 2, Why::NotAPacket),
            (&[0xcd, 0, 0xcd], 2, Why::CutLength),
            (&[0xb6, 0, 0, 0], 0, Why::CutLength),
            (&[0xcd, 3, 1, 2], 0, Why::CutBody),
            (&[0xcd, 225, 7, 8], 0, Why::CutLength),
        ] {
            let mut packets = Packets::new(text);
            let last = packets.by_ref().last().unwrap();
            assert_eq!(last, Err(Fault { place, why }));
            assert!(packets.next().is_none());
        }
    }
}
