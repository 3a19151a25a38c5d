//! The engine's script: lines `import` and `verdict`.

use std::collections::HashSet;
use std::io::{self, Write};

use tukyamid_verify::certificate::Certificate;
use tukyamid_verify::digits::digits;
use tukyamid_verify::number::Number;

use crate::verdict::Verdict;

/// Writes lines and counts their octets.
pub struct Script<W> {
    to: W,
    written: HashSet<Number>,
    pub octets: u64,
}

impl<W: Write> Script<W> {
    pub fn new(to: W) -> Script<W> {
        Script { to, written: HashSet::new(), octets: 0 }
    }

    pub fn import(&mut self, certificate: &Certificate) -> io::Result<()> {
        self.line(&format!("import {}\n", digits(&certificate.octets())))
    }

    /// The verdict on a number, unless one was written already.
    pub fn verdict(&mut self, number: &Number, verdict: &Verdict) -> io::Result<()> {
        if !self.written.insert(*number) {
            return Ok(());
        }
        let number = digits(number);
        match verdict {
            Verdict::Good(issuer) => self.line(&format!("verdict {number} good {issuer}\n")),
            Verdict::Bad => self.line(&format!("verdict {number} bad\n")),
        }
    }

    pub fn flush(&mut self) -> io::Result<()> {
        self.to.flush()
    }

    fn line(&mut self, line: &str) -> io::Result<()> {
        self.octets += line.len() as u64;
        self.to.write_all(line.as_bytes())
    }
}

#[cfg(test)]
mod tests {
    use super::*;
    use tukyamid_verify::fingerprint::Fingerprint;

    #[test]
    fn a_verdict_is_written_once() {
        let mut script = Script::new(Vec::new());
        let issuer = Fingerprint::of_key(&[4, 0, 0, 3, 0xe8, 0x1b, 1]).unwrap();
        script.verdict(&[0x0a; 32], &Verdict::Good(issuer)).unwrap();
        script.verdict(&[0x0a; 32], &Verdict::Bad).unwrap();
        script.verdict(&[0xf0; 32], &Verdict::Bad).unwrap();
        let expected = format!(
            "verdict {} good 7f35c8dbd6b3eb2ffd59cbdd2e41ea291212ac38\nverdict {} bad\n",
            "0a".repeat(32),
            "f0".repeat(32)
        );
        assert_eq!(String::from_utf8(script.to).unwrap(), expected);
        assert_eq!(script.octets, expected.len() as u64);
    }
}
