//! gpg's status lines (doc/DETAILS of GnuPG), for programs.

use crate::examine::Code;
use crate::streams::Stream;
use tukyamid_verify::fingerprint::Fingerprint;
use tukyamid_verify::said::Said;

/// Every line begins so.
pub const MARK: &str = "[GNUPG:] ";
/// gpg's number of an error in this program: the number of its source, and the error's own.
const SOURCE: u32 = 2 << 24;

pub struct Status(Stream);

impl Status {
    pub fn over(stream: Stream) -> Status {
        Status(stream)
    }

    pub fn line(&mut self, text: &str) {
        self.raw(format!("{MARK}{text}\n").as_bytes());
    }

    /// Octets unchanged: whole lines.
    pub fn raw(&mut self, octets: &[u8]) {
        self.0.write(octets);
    }

    /// A line that ends with what a stranger wrote.
    pub fn line_with(&mut self, text: &str, strange: &[u8]) {
        self.line(&format!("{text} {}", escaped(strange)));
    }

    pub fn failure(&mut self, place: &str, code: Code) {
        self.line(&format!("FAILURE {place} {}", SOURCE | code as u32));
    }

    pub fn is_broken(&self) -> bool {
        self.0.is_broken()
    }

    /// `ERRSIG` of a signature, and `NO_PUBKEY` if that is why.
    pub fn error(&mut self, said: &Said, code: Code) {
        let id = key_id(said);
        let fingerprint = said.fingerprint().as_ref().map(upper);
        self.line(&format!(
            "ERRSIG {id} {} {} {:02x} {} {} {}",
            said.key_algorithm,
            said.hash_algorithm,
            said.kind,
            said.created.unwrap_or(0),
            code as u32,
            fingerprint.unwrap_or_else(|| "-".to_owned())
        ));
        if code == Code::NoKey {
            self.line(&format!("NO_PUBKEY {id}"));
        }
    }
}

/// The key ID that a signature names.
pub fn key_id(said: &Said) -> String {
    said.key_id().map_or_else(|| "0".repeat(16), |id| id.to_string()).to_uppercase()
}

pub fn upper(fingerprint: &Fingerprint) -> String {
    fingerprint.to_string().to_uppercase()
}

/// As gpg spells what may hold anything: percent signs and control characters as `%XX`.
fn escaped(octets: &[u8]) -> String {
    let mut text = Vec::new();
    for octet in octets {
        match octet {
            b'%' | 0..=0x1f | 0x7f => text.extend_from_slice(format!("%{octet:02X}").as_bytes()),
            _ => text.push(*octet),
        }
    }
    // Whoever reads status lines expects UTF-8.
    String::from_utf8_lossy(&text).into_owned()
}

#[cfg(test)]
mod tests {
    use super::*;

    #[test]
    fn a_user_id_makes_no_line_of_its_own() {
        assert_eq!(escaped(b"a\n[GNUPG:] TRUST_FULLY\r%\x7f\xc3\xbc"), "a%0A[GNUPG:] TRUST_FULLY%0D%25%7Fü");
    }
}
