//! The status lines of the real gpg, as they come: those about signatures in blocks, one for each, and all others.

use crate::status::MARK;

/// The words of lines that belong to a signature.
const OF_A_SIGNATURE: &str = "NEWSIG KEY_CONSIDERED SIG_ID GOODSIG EXPSIG EXPKEYSIG REVKEYSIG BADSIG ERRSIG VALIDSIG \
    NO_PUBKEY KEYEXPIRED SIGEXPIRED KEYREVOKED NOTATION_NAME NOTATION_FLAGS NOTATION_DATA POLICY_URL \
    VERIFICATION_COMPLIANCE_MODE TOFU_USER TOFU_STATS TOFU_STATS_LONG PKA_TRUST_GOOD PKA_TRUST_BAD \
    TRUST_UNDEFINED TRUST_NEVER TRUST_MARGINAL TRUST_FULLY TRUST_ULTIMATE";

/// A line without its mark and end, as gpg wrote it.
pub type Line = Vec<u8>;

/// What gpg says of one signature.
#[derive(Debug, Default, PartialEq, Eq)]
pub struct Block {
    pub lines: Vec<Line>,
}

/// What `VALIDSIG` says.
#[derive(Debug, PartialEq, Eq)]
pub struct Valid {
    pub key: String,
    pub created: u32,
    pub expires: Option<u64>,
    pub key_algorithm: u8,
    pub hash_algorithm: u8,
    pub kind: u8,
    pub certificate: String,
}

impl Block {
    /// What follows the word of the one line that begins with it; None if there is no such line or several.
    pub fn rest(&self, word: &str) -> Option<&[u8]> {
        let mut found = self.lines.iter().filter(|line| word_of(line) == word.as_bytes());
        match (found.next(), found.next()) {
            (Some(line), None) => Some(line.get(word.len() + 1..).unwrap_or_default()),
            _ => None,
        }
    }

    pub fn valid(&self) -> Option<Valid> {
        let text = std::str::from_utf8(self.rest("VALIDSIG")?).ok()?;
        match text.split(' ').collect::<Vec<_>>()[..] {
            [key, _, created, expires, _, _, key_algorithm, hash_algorithm, kind, certificate] => Some(Valid {
                key: key.to_owned(),
                created: created.parse().ok()?,
                expires: Some(expires.parse().ok()?).filter(|end| *end != 0),
                key_algorithm: key_algorithm.parse().ok()?,
                hash_algorithm: hash_algorithm.parse().ok()?,
                kind: u8::from_str_radix(kind, 16).ok()?,
                certificate: certificate.to_ascii_lowercase(),
            }),
            _ => None,
        }
    }
}

pub fn word_of(line: &[u8]) -> &[u8] {
    line.split(|octet| *octet == b' ').next().unwrap_or_default()
}

/// The lines as they come, cut into what can be passed on and what waits.
#[derive(Default)]
pub struct Blocks {
    waiting: Vec<Block>,
}

/// What a line brings.
#[derive(Debug, PartialEq, Eq)]
pub enum Next {
    /// It belongs to a signature, of which more may come.
    Wait,
    /// Signatures are complete, and then there is another line.
    Other(Vec<Block>, Line),
}

impl Blocks {
    /// Takes a line, without its end.
    pub fn take(&mut self, line: &[u8]) -> Next {
        let line = line.strip_prefix(MARK.as_bytes()).unwrap_or(line).to_vec();
        let word = word_of(&line).to_vec();
        let is_of_a_signature = OF_A_SIGNATURE.split_ascii_whitespace().any(|one| one.as_bytes() == word);
        if !is_of_a_signature {
            return Next::Other(self.end(), line);
        }
        if word == b"NEWSIG" || self.waiting.is_empty() {
            self.waiting.push(Block::default());
        }
        if let Some(block) = self.waiting.last_mut() {
            block.lines.push(line);
        }
        Next::Wait
    }

    /// The signatures that wait.
    pub fn end(&mut self) -> Vec<Block> {
        std::mem::take(&mut self.waiting)
    }
}

#[cfg(test)]
mod tests {
    use super::*;

    #[test]
    fn lines_are_cut_into_blocks() {
        let mut blocks = Blocks::default();
        assert_eq!(blocks.take(b"[GNUPG:] ENC_TO x"), Next::Other(vec![], b"ENC_TO x".to_vec()));
        for line in ["NEWSIG", "GOODSIG a b", "NEWSIG", "BADSIG c d"] {
            assert_eq!(blocks.take(format!("{MARK}{line}").as_bytes()), Next::Wait);
        }
        match blocks.take(b"[GNUPG:] DECRYPTION_OKAY") {
            Next::Other(found, line) => {
                assert_eq!((found.len(), line.as_slice()), (2, &b"DECRYPTION_OKAY"[..]));
                assert_eq!(found[0].rest("GOODSIG"), Some(&b"a b"[..]));
                assert_eq!(found[1].rest("GOODSIG"), None);
            }
            Next::Wait => panic!("the signatures are complete"),
        }
        assert_eq!(blocks.end(), vec![]);
    }

    #[test]
    fn what_is_valid_has_ten_fields() {
        let of = |line: &str| Block { lines: vec![line.as_bytes().to_vec()] }.valid();
        let valid = of("VALIDSIG AB 2024-02-22 1708640000 0 4 0 22 8 01 CD").unwrap();
        assert_eq!(
            (valid.key.as_str(), valid.created, valid.kind, valid.certificate.as_str()),
            ("AB", 1708640000, 1, "cd")
        );
        assert!(of("VALIDSIG AB 2024-02-22 1708640000 0 4 0 22 8 01").is_none());
        assert!(of("VALIDSIG AB").is_none());
        assert!(of("GOODSIG a b").is_none());
    }
}
