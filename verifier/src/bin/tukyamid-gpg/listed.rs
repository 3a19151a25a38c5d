//! A key in gpg's listing for people, whose user IDs get the validity that the engine says:
//!
//! ```text
//! pub   ed25519 2023-11-14 [SC]
//!       36B508A8441B8D5A7F3E7A0B1D0F1B3C5A7E9D11
//! uid           [  full  ] Bob <bob@example.org>
//! ```

use crate::colons::Named;
use crate::trust::Level;

/// What is known of a key that gpg lists.
pub struct Listed {
    /// In lower-case digits.
    pub fingerprint: String,
    pub named: Vec<Named>,
    /// One for each of `named`.
    pub levels: Vec<Level>,
}

impl Listed {
    /// Of a key that nobody knows.
    pub fn unknown() -> Listed {
        Listed { fingerprint: String::new(), named: Vec::new(), levels: Vec::new() }
    }

    /// Puts the validities into the lines of this key. If the lines aren't those of this key or of this user ID, the
    /// keyring has changed meanwhile: there the validity is unknown.
    pub fn show_in(&self, lines: &mut [Vec<u8>]) {
        let is_it = self.is_shown_by(lines);
        let mut shown: Vec<(&mut Vec<u8>, Shown)> =
            lines.iter_mut().filter_map(|line| Shown::read(line).map(|shown| (line, shown))).collect();
        // gpg leaves out what has been revoked or has expired, unless the whole key has.
        let is_whole = shown.len() == self.named.len();
        let mut known = self.named.iter().zip(&self.levels).filter(|(named, _)| is_whole || !named.is_over);
        for (line, shown) in &mut shown {
            let level = match known.next() {
                Some((named, level)) if is_it && shown.is_of(named) => Some(*level).filter(|_| !named.is_over),
                _ => Some(Level::Undefined),
            };
            if let Some(level) = level {
                **line = shown.with(line, level);
            }
        }
    }

    /// Whether the fingerprint or the key ID in the first lines is that of this key.
    fn is_shown_by(&self, lines: &[Vec<u8>]) -> bool {
        let own = self.fingerprint.as_bytes();
        let squeezed = |line: &Vec<u8>| -> Vec<u8> {
            line.iter().filter(|octet| !octet.is_ascii_whitespace()).map(u8::to_ascii_lowercase).collect()
        };
        let has_fingerprint = lines.get(1).map_or(false, |line| squeezed(line).ends_with(own));
        let key_id =
            lines.first().and_then(|line| line.split(|octet| *octet == b' ').find(|word| word.contains(&b'/')));
        let key_id = key_id.and_then(|word| word.rsplit(|octet| *octet == b'/').next()).map(<[u8]>::to_ascii_lowercase);
        let has_key_id = key_id.map_or(false, |id| {
            let id = id.strip_prefix(b"0x").unwrap_or(&id);
            id.len() >= 8 && own.ends_with(id)
        });
        !own.is_empty() && (has_fingerprint || has_key_id)
    }
}

/// Where a line has the validity of a user ID, in brackets, and where the user ID begins.
struct Shown {
    begin: usize,
    end: usize,
    text: Vec<u8>,
}

impl Shown {
    /// None if the line isn't of a user ID, or doesn't show its validity.
    fn read(line: &[u8]) -> Option<Shown> {
        let rest = line.strip_prefix(b"uid ")?;
        let begin = line.len() - rest.len() + rest.iter().position(|octet| *octet != b' ')?;
        let end = begin + line[begin..].iter().position(|octet| *octet == b']')? + 1;
        let text = line[end..].strip_prefix(b" ").unwrap_or(&line[end..]);
        let text = text.strip_suffix(b"\n").unwrap_or(text).to_vec();
        (line[begin] == b'[').then(|| Shown { begin, end, text })
    }

    fn with(&self, line: &[u8], level: Level) -> Vec<u8> {
        [&line[..self.begin], words(level), &line[self.end..]].concat()
    }

    /// Whether gpg shows this user ID so. It spells what isn't printable, and so only what is before that is compared.
    fn is_of(&self, named: &Named) -> bool {
        let user_id = match &named.user_id {
            Some(user_id) => user_id,
            None => return self.text.starts_with(b"["),
        };
        let is_plain = |octet: &u8| matches!(octet, b' '..=b'~') && *octet != b'\\';
        match user_id.iter().position(|octet| !is_plain(octet)) {
            Some(place) => self.text.starts_with(&user_id[..place]),
            None => self.text == *user_id,
        }
    }
}

/// As gpg shows it.
fn words(level: Level) -> &'static [u8] {
    match level {
        Level::Undefined => b"[ unknown]",
        Level::Marginal => b"[marginal]",
        Level::Fully => b"[  full  ]",
        Level::Ultimate => b"[ultimate]",
    }
}

#[cfg(test)]
mod tests {
    use super::*;

    fn named(user_id: &str, is_over: bool) -> Named {
        Named { user_id: Some(user_id.as_bytes().to_vec()), is_over }
    }

    fn shown(listed: &Listed, text: &str) -> String {
        let mut lines: Vec<Vec<u8>> = text.split_inclusive('\n').map(|line| line.as_bytes().to_vec()).collect();
        listed.show_in(&mut lines);
        String::from_utf8(lines.concat()).unwrap()
    }

    fn key(first: &str, second: &str, validity: &str) -> String {
        format!("pub   {first} 2023-11-14 [SC]\n{second}uid           [{validity}] Bob [x] <b@x>\n")
    }

    #[test]
    fn the_key_has_to_be_the_same() {
        let fingerprint = "0123456789abcdef0123456789abcdef01234567".to_owned();
        let bob = Listed { fingerprint, named: vec![named("Bob [x] <b@x>", false)], levels: vec![Level::Fully] };
        let whole = "      0123456789ABCDEF0123456789ABCDEF01234567\n";
        let grouped = "      Key fingerprint = 0123 4567 89AB CDEF 0123  4567 89AB CDEF 0123 4567\n";
        for (first, second, validity) in [
            ("rsa2048", whole, "  full  "),
            ("rsa2048", grouped, "  full  "),
            ("rsa2048/89ABCDEF01234567", "", "  full  "),
            ("rsa2048/0x01234567", "", "  full  "),
            ("rsa2048/0x01234568", "", " unknown"),
            ("rsa2048", "", " unknown"),
            ("rsa2048/", "", " unknown"),
            ("rsa2048", "      1123456789ABCDEF0123456789ABCDEF01234568\n", " unknown"),
        ] {
            assert_eq!(shown(&bob, &key(first, second, "ultimate")), key(first, second, validity), "{first} {second}");
        }
        assert_eq!(shown(&Listed::unknown(), &key("rsa2048", whole, "ultimate")), key("rsa2048", whole, " unknown"));
    }

    #[test]
    fn the_user_id_has_to_be_the_same() {
        let listed =
            |named: Vec<Named>| Listed { fingerprint: "f".repeat(40), levels: vec![Level::Fully; named.len()], named };
        let text = |lines: &[(&str, &str)]| {
            let lines: String = lines.iter().map(|(validity, name)| format!("uid    [{validity}] {name}\n")).collect();
            format!("pub   rsa2048/FFFFFFFFFFFFFFFF x\n{lines}sub   rsa2048\n")
        };
        let changed = |named: Vec<Named>, lines: &[(&str, &str)]| shown(&listed(named), &text(lines));
        assert_eq!(changed(vec![named("A", false)], &[("  ?  ", "A")]), text(&[("  full  ", "A")]));
        assert_eq!(changed(vec![named("A", false)], &[("ultimate", "B")]), text(&[(" unknown", "B")]));
        assert_eq!(changed(vec![named("A\nx", false)], &[("", "A\\nx")]), text(&[("  full  ", "A\\nx")]));
        // One that has been revoked isn't shown, unless the key has.
        let two = || vec![named("A", true), named("B", false)];
        assert_eq!(changed(two(), &[("", "B")]), text(&[("  full  ", "B")]));
        let both = [(" revoked", "A"), (" unknown", "B")];
        assert_eq!(changed(two(), &both), text(&[(" revoked", "A"), ("  full  ", "B")]));
        // More or other lines than there were.
        let three = [("ultimate", "A"), ("ultimate", "B"), ("ultimate", "C")];
        assert_eq!(changed(two(), &three), text(&[(" unknown", "A"), (" unknown", "B"), (" unknown", "C")]));
        let attribute = || vec![Named { user_id: None, is_over: false }];
        let mut photo = listed(attribute());
        photo.levels = vec![Level::Undefined];
        assert_eq!(shown(&photo, &text(&[("ultimate", "[jpeg]")])), text(&[(" unknown", "[jpeg]")]));
    }

    #[test]
    fn a_line_without_a_validity_stays() {
        for line in ["uid           Bob\n", "uid\n", "uid  [x\n", "sub  [x] y\n", "uid:x[a]\n"] {
            assert!(Shown::read(line.as_bytes()).is_none(), "{line}");
        }
    }
}
