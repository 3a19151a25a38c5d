//! Where the armor of a text is (RFC 9580, section 6.2), and what is around it.

use std::io::{self, BufRead, Read};

use crate::cleartext;

/// A longer line is read in pieces. No line that counts here is so long.
const LONGEST_LINE: u64 = 1 << 16;
/// How far the beginning of an armored text is sought, in octets.
const FARTHEST_BEGIN: u64 = 1 << 20;

/// A text with one armored block, or with one text that has a cleartext signature.
#[derive(Clone, Copy, Debug, PartialEq, Eq)]
pub struct Layout {
    pub is_cleartext: bool,
    /// The octet at which the block begins, and the one after its last line.
    pub begin: u64,
    pub end: u64,
    pub outside: Outside,
}

/// Whether there is anything but empty lines before and after what is signed. It is covered by no signature.
#[derive(Clone, Copy, Debug, Default, PartialEq, Eq)]
pub struct Outside {
    pub before: bool,
    pub after: bool,
}

/// Which lines come next.
#[derive(Clone, Copy, PartialEq, Eq)]
enum Within {
    Before,
    /// The text that is signed in the clear.
    Text,
    Armor,
    After,
}

impl Layout {
    /// Of a text from its beginning. An Err of kind InvalidData says that it has no armored block, or several.
    pub fn read(text: &mut dyn BufRead) -> io::Result<Layout> {
        let mut layout = Layout { is_cleartext: false, begin: 0, end: 0, outside: Outside::default() };
        let mut within = Within::Before;
        let (mut line, mut at, mut is_line_start) = (Vec::new(), 0, true);
        loop {
            line.clear();
            let length = text.take(LONGEST_LINE).read_until(b'\n', &mut line)? as u64;
            if length == 0 {
                break;
            }
            // What goes on with a long line is no line of its own.
            let head = if is_line_start { &line[..] } else { b" " };
            within = layout.take(within, head, line.iter().all(u8::is_ascii_whitespace), at)?;
            at += length;
            is_line_start = line.ends_with(b"\n");
            if within != Within::After {
                layout.end = at;
            }
            if within == Within::Before && at > FARTHEST_BEGIN {
                break;
            }
        }
        match within {
            Within::Before => Err(invalid("no armored text begins here")),
            _ => Ok(layout),
        }
    }

    fn take(&mut self, within: Within, line: &[u8], is_blank: bool, at: u64) -> io::Result<Within> {
        let is_begin = line.starts_with(b"-----BEGIN PGP ");
        Ok(match within {
            Within::Before if is_begin => {
                self.begin = at;
                self.is_cleartext = cleartext::is_begun_by(line);
                if self.is_cleartext { Within::Text } else { Within::Armor }
            }
            Within::Before => {
                self.outside.before |= !is_blank;
                Within::Before
            }
            Within::Text if cleartext::is_ended_by(line) => Within::Armor,
            Within::Armor if line.starts_with(b"-----END PGP ") => {
                // This line belongs to the block.
                self.end = at + line.len() as u64;
                Within::After
            }
            // Inside a block it would have the library begin at another line than this program.
            Within::Armor | Within::After if is_begin => {
                return Err(invalid("it holds more than one armored text"));
            }
            Within::After => {
                self.outside.after |= !is_blank;
                Within::After
            }
            other => other,
        })
    }
}

fn invalid(why: &str) -> io::Error {
    io::Error::new(io::ErrorKind::InvalidData, why)
}

#[cfg(test)]
mod tests {
    use super::*;

    const ARMOR: &str = "-----BEGIN PGP MESSAGE-----\n\nowE=\n-----END PGP MESSAGE-----\n";
    const CLEAR: &str = "-----BEGIN PGP SIGNED MESSAGE-----\r\n\r\n- -----BEGIN PGP MESSAGE-----\r\n\
        -----BEGIN PGP SIGNATURE-----\r\n\r\niQ==\r\n-----END PGP SIGNATURE-----";

    fn layout(text: &str) -> io::Result<(bool, String, Outside)> {
        let found = Layout::read(&mut text.as_bytes())?;
        let block = &text[found.begin as usize..found.end as usize];
        Ok((found.is_cleartext, block.to_owned(), found.outside))
    }

    #[test]
    fn blocks_and_what_is_around_them() {
        for (is_clear, block) in [(false, ARMOR), (true, CLEAR)] {
            let plain = layout(block).unwrap();
            assert_eq!(plain, (is_clear, block.to_owned(), Outside { before: false, after: false }));
            let blank = layout(&format!(" \n\r\n{block}\n\n\t\n")).unwrap();
            assert_eq!((blank.0, blank.2), (is_clear, Outside { before: false, after: false }));
            let around = layout(&format!("a\n{block}\n\nb")).unwrap();
            assert_eq!((around.0, around.2), (is_clear, Outside { before: true, after: true }));
            assert!(around.1.starts_with(block.trim_end()));
            let long = layout(&format!("{}-----BEGIN PGP X\n{block}", " ".repeat(LONGEST_LINE as usize))).unwrap();
            assert_eq!((long.0, long.2), (is_clear, Outside { before: true, after: false }));
        }
    }

    #[test]
    fn no_block_and_two_blocks_are_errors() {
        for text in [
            String::new(),
            "a\n".to_owned(),
            format!("> {ARMOR}"),
            format!("{ARMOR}{ARMOR}"),
            format!("{CLEAR}\n{CLEAR}"),
            format!("{CLEAR}\nb\n{ARMOR}"),
            format!("-----BEGIN PGP X-----\na\n{ARMOR}"),
            format!("{}{ARMOR}", "a\n".repeat(1 << 20)),
        ] {
            assert!(layout(&text).is_err(), "{:?}", &text[..text.len().min(60)]);
        }
    }
}
