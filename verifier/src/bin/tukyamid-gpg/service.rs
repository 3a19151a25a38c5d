//! What is asked of the service: which certificates hold a key, and how far the engine reaches a user ID.

use std::collections::BTreeMap;
use std::path::Path;

use tukyamid_verify::fingerprint::Fingerprint;
use tukyamid_verify::signature::Issuer;

use crate::socket::{Away, Connection};

/// The service reads no more lines ahead than this, half of which are sent at once.
const AT_ONCE: usize = 32;
/// The views of this connection: at the time of signing, and now.
const VIEWS: [&str; 2] = ["s", "n"];

pub struct Service {
    connection: Connection,
    has_roots: bool,
}

/// How far the engine reaches a user ID: at the time of signing, and now.
#[derive(Clone, Copy, Debug, Default, PartialEq, Eq)]
pub struct Reach {
    pub at_signing: u32,
    pub now: u32,
}

impl Reach {
    /// It has to be reached at both times.
    pub fn amount(self) -> u32 {
        self.at_signing.min(self.now)
    }
}

/// The times of a question, in seconds since 1970.
#[derive(Clone, Copy)]
pub struct Times {
    pub signing: u32,
    pub now: u32,
}

impl Service {
    pub fn open(socket: Option<&Path>) -> Result<Service, Away> {
        Ok(Service { connection: Connection::open(socket)?, has_roots: false })
    }

    /// Is given up after a minute, however many questions there are.
    pub fn limited(mut self) -> Service {
        self.connection.limit();
        self
    }

    /// The packets of the certificates that have one of these keys, as their primary key or as a subkey.
    pub fn holders(&mut self, issuers: &[Issuer]) -> Result<Vec<Vec<u8>>, Away> {
        self.connection.begin();
        let mut found: BTreeMap<String, Vec<u8>> = BTreeMap::new();
        for some in issuers.chunks(AT_ONCE) {
            let lines: Vec<String> = some.iter().map(|issuer| format!("service holders {}\n", named(issuer))).collect();
            self.connection.send(lines.concat().as_bytes())?;
            for _ in some {
                self.read_holders(&mut found)?;
            }
        }
        Ok(found.into_values().collect())
    }

    fn read_holders(&mut self, found: &mut BTreeMap<String, Vec<u8>>) -> Result<(), Away> {
        let head = self.text()?;
        let count = head.strip_prefix("service holders ").and_then(|count| count.parse::<usize>().ok());
        let count = match count {
            Some(count) => count,
            None if head == "refused line" => {
                return Err(Away("the service is older than this program: restart it".to_owned()));
            }
            None => return Err(unexpected(&head)),
        };
        for _ in 0..count {
            let line = self.text()?;
            let parts = line.strip_prefix("holder ").and_then(|rest| rest.split_once(' '));
            let (fpr, hexadecimal) = parts.ok_or_else(|| unexpected(&line))?;
            let octets = octets_of(hexadecimal).ok_or_else(|| unexpected(fpr))?;
            found.insert(fpr.to_owned(), octets);
        }
        Ok(())
    }

    /// How far each user ID of a certificate is reached, up to the wanted amount.
    pub fn reach(
        &mut self,
        roots: &BTreeMap<String, u32>,
        times: Times,
        certificate: Fingerprint,
        wanted: u32,
        user_ids: &[&[u8]],
    ) -> Result<Vec<Reach>, Away> {
        self.connection.begin();
        let mut lines = Vec::new();
        for (view, time) in VIEWS.iter().zip([times.signing, times.now]) {
            lines.push(format!("view {view} time {time}\n"));
            if !self.has_roots {
                lines.extend(roots.iter().map(|(fpr, amount)| format!("view {view} root {fpr} {amount}\n")));
            }
        }
        self.has_roots = true;
        let before = lines.len();
        for user_id in user_ids {
            let spelled = spelled(user_id);
            lines.extend(VIEWS.map(|view| format!("ask {view} {certificate} {wanted} {spelled}\n")));
        }
        let mut amounts = Vec::new();
        for (place, some) in lines.chunks(AT_ONCE).enumerate() {
            self.connection.send(some.concat().as_bytes())?;
            for place in place * AT_ONCE..place * AT_ONCE + some.len() {
                if place < before {
                    self.read_ok()?;
                } else {
                    amounts.push(self.read_amount()?);
                }
            }
        }
        Ok(amounts.chunks(2).map(|pair| Reach { at_signing: pair[0], now: pair[1] }).collect())
    }

    fn read_ok(&mut self) -> Result<(), Away> {
        let line = self.text()?;
        if line == "ok" {
            Ok(())
        } else {
            Err(unexpected(&line))
        }
    }

    /// Of a reply to `ask`, whose paths are skipped.
    fn read_amount(&mut self) -> Result<u32, Away> {
        let head = self.text()?;
        let words: Vec<&str> = head.split(' ').collect();
        let (sum, paths) = match words[..] {
            ["amount", sum, "paths", paths] => (sum.parse(), paths.parse::<usize>()),
            _ => return Err(unexpected(&head)),
        };
        let (sum, paths) = sum.ok().zip(paths.ok()).ok_or_else(|| unexpected(&head))?;
        for _ in 0..paths {
            let path = self.text()?;
            let words: Vec<&str> = path.split(' ').collect();
            let steps = match words[..] {
                ["path", _, "steps", steps, "root", _] => steps.parse::<usize>().ok(),
                _ => None,
            };
            for _ in 0..steps.ok_or_else(|| unexpected(&path))? {
                let step = self.text()?;
                step.strip_prefix("step ").ok_or_else(|| unexpected(&step))?;
            }
        }
        Ok(sum)
    }

    fn text(&mut self) -> Result<String, Away> {
        let line = self.connection.line()?;
        String::from_utf8(line.to_vec()).map_err(|_| Away("the service answers what isn't text".to_owned()))
    }
}

fn unexpected(line: &str) -> Away {
    let front: String = line.chars().take(80).collect();
    Away(format!("the service answers {front:?}"))
}

/// An issuer as a line spells it.
fn named(issuer: &Issuer) -> String {
    match issuer {
        Issuer::Fingerprint(fingerprint) => fingerprint.to_string(),
        Issuer::KeyId(id) => id.to_string(),
    }
}

/// A user ID as a line spells it (docs/PROTOCOL.md).
fn spelled(user_id: &[u8]) -> String {
    let mut text = String::new();
    for octet in user_id {
        match octet {
            b'\\' => text.push_str("\\\\"),
            0x20..=0x7e => text.push(char::from(*octet)),
            _ => text.push_str(&format!("\\x{octet:02x}")),
        }
    }
    text
}

fn octets_of(hexadecimal: &str) -> Option<Vec<u8>> {
    let digit = |digit: &u8| char::from(*digit).to_digit(16).map(|value| value as u8);
    let octet = |pair: &[u8]| match pair {
        [high, low] => Some(digit(high)? << 4 | digit(low)?),
        _ => None,
    };
    hexadecimal.as_bytes().chunks(2).map(octet).collect()
}

#[cfg(test)]
mod tests {
    use super::*;

    #[test]
    fn user_ids_and_octets_are_spelled_as_the_protocol_has_it() {
        assert_eq!(spelled(b"a \\ \n\xff~"), "a \\\\ \\x0a\\xff~");
        assert_eq!(octets_of("00ffA1"), Some(vec![0, 255, 0xa1]));
        assert_eq!((octets_of("0"), octets_of("0g"), octets_of("")), (None, None, Some(vec![])));
    }
}
