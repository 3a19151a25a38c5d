//! The digest of signed data (RFC 9580, section 5.2.4), fed piece by piece.

use crate::hasher::Hasher;
use crate::signature::{kind, Signature};

#[derive(Clone)]
pub struct Digesting {
    hasher: Hasher,
    is_text: bool,
    /// Whether the last octet was a carriage return, which ends a line if a line feed follows.
    is_return_held: bool,
}

impl Digesting {
    /// None if the hash algorithm isn't known.
    pub fn new(signature: &Signature) -> Option<Digesting> {
        let mut hasher = Hasher::new(signature.hash_algorithm)?;
        hasher.update(signature.salt);
        Some(Digesting { hasher, is_text: signature.kind == kind::TEXT, is_return_held: false })
    }

    pub fn update(&mut self, octets: &[u8]) {
        if self.is_text {
            octets.split_inclusive(|octet| *octet == b'\n').for_each(|piece| self.update_line(piece));
        } else {
            self.hasher.update(octets);
        }
    }

    /// Of a line or a part of one: it ends with a carriage return and a line feed, however it was spelled.
    fn update_line(&mut self, piece: &[u8]) {
        let (text, is_ended) = piece.strip_suffix(b"\n").map_or((piece, false), |text| (text, true));
        if self.is_return_held && !(text.is_empty() && is_ended) {
            self.hasher.update(b"\r");
        }
        let (text, is_returned) = text.strip_suffix(b"\r").map_or((text, false), |text| (text, true));
        self.hasher.update(text);
        if is_ended {
            self.hasher.update(b"\r\n");
        }
        self.is_return_held = is_returned && !is_ended;
    }

    /// The digest of the data and of the signature that this was made for.
    pub fn digest(mut self, signature: &Signature) -> Option<Vec<u8>> {
        if self.is_return_held {
            self.hasher.update(b"\r");
        }
        self.hasher.update_trailer(signature);
        self.hasher.digest()
    }
}

#[cfg(test)]
mod tests {
    use super::*;
    use crate::digits::digits;

    fn digest(kind: u8, pieces: &[&[u8]]) -> Vec<u8> {
        let body = [4, kind, 22, 8, 0, 0, 0, 0, 0xab, 0xcd];
        let signature = Signature::read(&body).unwrap();
        let mut digesting = Digesting::new(&signature).unwrap();
        pieces.iter().for_each(|piece| digesting.update(piece));
        digesting.digest(&signature).unwrap()
    }

    #[test]
    fn digests_are_those_of_other_programs() {
        // As Python's hashlib has them of what is signed and 04 TYPE 16 08 00 00 04 ff 00 00 00 06.
        let binary = "1b8e92b33e9baf80901f17ff5e1542f3ac0cefcf483b276caecf4c98631e717a";
        assert_eq!(digits(&digest(0, &[b"a\n", b"b"])), binary);
        let text = "8add62fdd125a40cb79a2df7b5c7ee8247a0b5e35ca954cdf8b14baf62e18a34";
        assert_eq!(digits(&digest(1, &[b"a\n\n", b"b\rc\n"])), text);
    }

    #[test]
    fn lines_of_text_end_alike_however_they_are_cut() {
        let expected = digest(1, &[b"a\r\n\r\nb\rc\r\n"]);
        let texts: [&[&[u8]]; 5] = [
            &[b"a\n\nb\rc\n"],
            &[b"a\r", b"\n\r", b"\nb\r", b"c\r", b"\n"],
            &[b"a\r", b"\n", b"\r\nb", b"\r", b"c", b"\n"],
            &[b"a", b"\r\n", b"\n", b"b\rc", b"\r\n"],
            &[b"", b"a\n", b"", b"\nb\rc\n"],
        ];
        for text in texts {
            assert_eq!(digest(1, text), expected, "{text:?}");
        }
        for text in [&b"a\n\nb\nc\n"[..], b"a\n\nb\rc", b"a\n\nb\rc\r", b"a\n\nb\rc\n\r", b"a\r\r\n\nb\rc\n"] {
            assert_ne!(digest(1, &[text]), expected, "{text:?}");
        }
        assert_eq!(digest(1, &[b"a\r", b"\r", b"\n"]), digest(1, &[b"a\r\r\n"]));
        assert_ne!(digest(1, &[b"a\r"]), digest(1, &[b"a"]));
    }
}
