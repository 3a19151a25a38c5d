//! Lines of gpg's listing for programs (doc/DETAILS of GnuPG): fields with colons between them.

use crate::trust::Level;

/// The place of the validity, and of a fingerprint or a user ID.
const VALIDITY: usize = 1;
const NAME: usize = 9;

/// The lines of one key, each in its fields.
pub struct Key(Vec<Vec<Vec<u8>>>);

/// A user ID or an attribute of a key.
pub struct Named {
    /// The octets of a user ID; None of an attribute, about which the engine says nothing.
    pub user_id: Option<Vec<u8>>,
    /// Whether gpg says that it is invalid, disabled, revoked or expired, or that its key is.
    pub is_over: bool,
}

impl Key {
    /// Of unchanged lines.
    pub fn of(lines: &[Vec<u8>]) -> Key {
        Key(lines.iter().map(|line| line.split(|octet| *octet == b':').map(<[u8]>::to_vec).collect()).collect())
    }

    /// The primary key's fingerprint, in lower-case digits; None if these lines aren't about a key.
    pub fn fingerprint(&self) -> Option<String> {
        let line = self.0.iter().find(|line| line[0] == b"fpr")?;
        line.get(NAME).map(|digits| String::from_utf8_lossy(digits).to_ascii_lowercase())
    }

    /// User IDs and attributes, in their order.
    pub fn named(&self) -> Vec<Named> {
        let of_line = |line: &Vec<Vec<u8>>| Named {
            user_id: line.get(NAME).filter(|_| line[0] == b"uid").map(|text| unspelled(text)),
            is_over: line.get(VALIDITY).map_or(false, |field| is_of_key(field)),
        };
        self.0.iter().filter(|line| is_named(&line[0])).map(of_line).collect()
    }

    /// Sets the validity of each of `named`, and that of the keys to the best of them.
    pub fn set_levels(&mut self, levels: &[Level]) {
        let best = levels.iter().copied().max().unwrap_or(Level::Undefined);
        let mut each = levels.iter().copied();
        for line in &mut self.0 {
            let level = match line[0].as_slice() {
                kind if is_named(kind) => each.next().unwrap_or(Level::Undefined),
                b"pub" | b"sub" => best,
                _ => continue,
            };
            if let Some(field) = line.get_mut(VALIDITY).filter(|field| !is_of_key(field)) {
                *field = letter(level).to_vec();
            }
        }
    }

    /// The lines as they are then.
    pub fn into_lines(self) -> impl Iterator<Item = Vec<u8>> {
        self.0.into_iter().map(|line| line.join(&b':'))
    }
}

/// Whether a line is of a user ID or of an attribute.
fn is_named(kind: &[u8]) -> bool {
    matches!(kind, b"uid" | b"uat")
}

/// Whether a validity is about the key or the user ID itself: invalid, disabled, revoked, expired.
fn is_of_key(field: &[u8]) -> bool {
    matches!(field, b"i" | b"d" | b"r" | b"e")
}

fn letter(level: Level) -> &'static [u8] {
    match level {
        Level::Undefined => b"-",
        Level::Marginal => b"m",
        Level::Fully => b"f",
        Level::Ultimate => b"u",
    }
}

/// The octets that gpg has spelled with backslashes.
fn unspelled(text: &[u8]) -> Vec<u8> {
    let mut octets = Vec::new();
    let mut rest = text;
    while let Some((first, more)) = rest.split_first() {
        let (octet, taken) = match (first, more) {
            (b'\\', [b'x', high, low, ..]) => (hexadecimal(&[*high, *low]), 3),
            (b'\\', [letter, ..]) => (named(*letter), 1),
            _ => (None, 0),
        };
        octets.push(octet.unwrap_or(*first));
        rest = if octet.is_some() { &more[taken..] } else { more };
    }
    octets
}

fn hexadecimal(digits: &[u8]) -> Option<u8> {
    u8::from_str_radix(std::str::from_utf8(digits).ok()?, 16).ok()
}

fn named(letter: u8) -> Option<u8> {
    Some(match letter {
        b'n' => b'\n',
        b'r' => b'\r',
        b'f' => 0x0c,
        b'v' => 0x0b,
        b'b' => 0x08,
        b'0' => 0,
        b'\\' => b'\\',
        _ => return None,
    })
}

#[cfg(test)]
mod tests {
    use super::*;

    #[test]
    fn names_are_read_back() {
        assert_eq!(unspelled(b"a\\x3ab\\n\\\\ \\q\\x4"), b"a:b\n\\ \\q\\x4");
    }

    #[test]
    fn validities_are_set() {
        let fpr = "B".repeat(40);
        let text =
            format!("pub:u:2048\nfpr:::::::::{fpr}:\nuid:f::::::::Bob:\nuat:f::::::::1 99:\nuid:r::::::::B:\nsub:f:1");
        let lines: Vec<Vec<u8>> = text.split('\n').map(|line| line.as_bytes().to_vec()).collect();
        let set = |levels: &[Level]| {
            let mut key = Key::of(&lines);
            key.set_levels(levels);
            let lines: Vec<String> = key.into_lines().map(|line| String::from_utf8(line).unwrap()).collect();
            lines.join("\n")
        };
        assert_eq!(Key::of(&lines).fingerprint(), Some("b".repeat(40)));
        let named = Key::of(&lines).named();
        let names: Vec<_> = named.iter().map(|one| (one.user_id.as_deref(), one.is_over)).collect();
        assert_eq!(names, [(Some(&b"Bob"[..]), false), (None, false), (Some(b"B"), true)]);
        let all_unknown = text.replace("pub:u", "pub:-").replace("uid:f", "uid:-").replace("uat:f", "uat:-");
        assert_eq!(set(&[]), all_unknown.replace("sub:f", "sub:-"));
        let best = text.replace("pub:u", "pub:m").replace("uid:f", "uid:m").replace("uat:f", "uat:-");
        assert_eq!(set(&[Level::Marginal]), best.replace("sub:f", "sub:m"));
    }
}
