//! Whom a signer should be: a user ID, an e-mail address, or a domain. Addresses are compared as the command compares
//! them: letters of either case, and domains in any of their spellings.

use std::borrow::Cow;

/// What is longer isn't an address, as for the command: in octets, and a label of the domain in characters.
const LONGEST: usize = 254;
const LONGEST_LABEL: usize = 63;
/// Those that IDNA takes for dots (RFC 3490, section 3.1).
const DOTS: [char; 4] = ['.', '\u{3002}', '\u{ff0e}', '\u{ff61}'];

#[derive(Clone, Debug, PartialEq, Eq)]
pub enum Whom {
    UserId(Vec<u8>),
    /// In its canonical spelling, as all addresses here.
    Address(String),
    Domain(String),
}

impl Whom {
    /// `@example.org` is a domain, `carol@example.org` an address, and any other text is a whole user ID.
    pub fn read(text: &str) -> Result<Whom, String> {
        if let Some(domain) = text.strip_prefix('@') {
            let address = address_of(format!("someone@{domain}").as_bytes());
            let domain = address.as_deref().map(|address| domain_of(address).to_owned());
            return domain.map(Whom::Domain).ok_or(format!("{text:?} isn't a domain: write it as @example.org"));
        }
        if text.is_empty() {
            return Err("an empty text names nobody".to_owned());
        }
        match address_of(text.as_bytes()) {
            Some(address) if !text.contains('<') => Ok(Whom::Address(address)),
            _ => Ok(Whom::UserId(text.as_bytes().to_vec())),
        }
    }

    /// Whether a user ID is this one, has this address, or an address of this domain. A domain below it is another one.
    pub fn is_named_by(&self, user_id: &[u8]) -> bool {
        match self {
            Whom::UserId(own) => own == user_id,
            Whom::Address(own) => address_of(user_id).as_ref() == Some(own),
            Whom::Domain(own) => address_of(user_id).map_or(false, |address| domain_of(&address) == own),
        }
    }
}

fn domain_of(address: &str) -> &str {
    address.rsplit('@').next().unwrap_or("")
}

/// The canonical address of a user ID; None if it has none: `Name <mailbox@domain>`, or an address alone.
pub fn address_of(user_id: &[u8]) -> Option<String> {
    let text: Cow<str> = String::from_utf8_lossy(user_id);
    let text = text.trim();
    let inner = match text.strip_suffix('>') {
        Some(front) => &front[front.rfind('<')? + 1..],
        None => text,
    };
    let has_sides = inner.match_indices('@').any(|(place, _)| place > 0 && place + 1 < inner.len());
    let is_fit = |character: char| !matches!(character, '<' | '>') && !character.is_whitespace();
    (is_short(inner) && has_sides && inner.chars().all(is_fit)).then(|| canonical(inner))
}

fn is_short(address: &str) -> bool {
    address.len() <= LONGEST && domain_of(address).split(DOTS).all(|label| label.chars().count() <= LONGEST_LABEL)
}

/// In lower case, with the domain's ASCII spelling; a domain that has none stays as it is.
fn canonical(address: &str) -> String {
    let (mailbox, domain) = address.rsplit_once('@').unwrap_or(("", address));
    format!("{}@{}", mailbox.to_lowercase(), ascii_domain(domain))
}

fn ascii_domain(domain: &str) -> String {
    if domain.is_ascii() {
        return domain.to_ascii_lowercase();
    }
    let ascii = idna::domain_to_ascii(domain).ok().filter(|ascii| !ascii.is_empty());
    ascii.unwrap_or_else(|| domain.to_lowercase())
}

#[cfg(test)]
mod tests {
    use super::*;

    #[test]
    fn addresses_of_user_ids() {
        for (user_id, address) in [
            ("Carol (work) <Carol@Example.org>", Some("carol@example.org")),
            ("carol@EXAMPLE.org", Some("carol@example.org")),
            ("Zo\u{cb} <Zo\u{cb}@B\u{dc}CHER.example>", Some("zo\u{eb}@xn--bcher-kva.example")),
            ("Carol", None),
            ("Carol <carol>", None),
            ("Carol <@example.org>", None),
            ("Carol <carol@>", None),
            ("carol@example.org x", None),
            ("a <b@c> <d@e>", Some("d@e")),
            ("a <b c@d>", None),
            ("", None),
            (&format!("a@{}.org", "x".repeat(63)), Some(&format!("a@{}.org", "x".repeat(63)))),
            (&format!("a@{}.org", "x".repeat(64)), None),
            (&format!("a@b\u{3002}{}", "x".repeat(64)), None),
            (&format!("{}@b.org", "x".repeat(248)), Some(&format!("{}@b.org", "x".repeat(248)))),
            (&format!("{}@b.org", "x".repeat(249)), None),
        ] {
            assert_eq!(address_of(user_id.as_bytes()).as_deref(), address, "{user_id}");
        }
    }

    #[test]
    fn whom_a_user_id_names() {
        let names = |whom: &str, user_id: &str| Whom::read(whom).unwrap().is_named_by(user_id.as_bytes());
        assert!(names("@example.org", "Carol <carol@Example.org>"));
        assert!(!names("@example.org", "Dan <dan@mail.example.org>"));
        assert!(!names("@example.org", "Dan <dan@notexample.org>"));
        assert!(names("carol@example.org", "Carol <Carol@example.org>"));
        assert!(!names("Carol <carol@example.org>", "Carol <Carol@example.org>"));
        assert!(names("Carol <carol@example.org>", "Carol <carol@example.org>"));
        for text in ["", "@", "@a b"] {
            assert!(Whom::read(text).is_err(), "{text:?}");
        }
    }
}
