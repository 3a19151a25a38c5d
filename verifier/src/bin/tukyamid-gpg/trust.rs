//! How far a signer is trusted: by the engine, from the user's roots, at the time of signing and now.

use std::collections::BTreeMap;
use std::ffi::OsString;
use std::os::unix::ffi::OsStrExt;

use crate::config::Policy;
use crate::examine::By;
use crate::service::{Service, Times};
use crate::socket::Away;
use crate::whom::address_of;
use tukyamid_verify::said::Said;

/// From this amount on a signer is marginally trusted.
const MARGINAL: u32 = 40;
/// A certificate's user IDs after these aren't asked about.
const MOST_USER_IDS: usize = 256;
const NO_USER_ID: &[u8] = b"[?]";

#[derive(Clone, Copy, Debug, PartialEq, Eq, PartialOrd, Ord)]
pub enum Level {
    Undefined,
    Marginal,
    Fully,
    Ultimate,
}

impl Level {
    /// In status lines.
    pub fn word(self) -> &'static str {
        match self {
            Level::Undefined => "TRUST_UNDEFINED",
            Level::Marginal => "TRUST_MARGINAL",
            Level::Fully => "TRUST_FULLY",
            Level::Ultimate => "TRUST_ULTIMATE",
        }
    }

    /// For people.
    pub fn shown(self) -> &'static str {
        match self {
            Level::Undefined => "unknown",
            Level::Marginal => "marginal",
            Level::Fully => "full",
            Level::Ultimate => "ultimate",
        }
    }
}

/// A signer's user ID that is reached farthest, or the primary one if none is reached.
#[derive(Clone, Debug)]
pub struct Signer {
    pub user_id: Vec<u8>,
    pub amount: u32,
    pub level: Level,
    /// Whether the amount that is wanted is reached now, but wasn't at the time of signing.
    pub is_certified_since: bool,
}

/// What was found of user IDs: the one that is reached farthest, and how far.
#[derive(Default)]
struct Found<'u> {
    user_id: Option<&'u [u8]>,
    amount: u32,
    is_certified_since: bool,
}

/// Who is asked, and what is asked of signers.
pub struct Trust<'c> {
    pub service: &'c mut Service,
    pub roots: &'c BTreeMap<String, u32>,
    pub policy: &'c Policy,
    pub senders: &'c [OsString],
    pub now: u32,
}

impl Trust<'_> {
    pub fn signer(&mut self, by: &By, said: &Said) -> Result<Signer, Away> {
        let fitting = fitting(&by.user_ids, self.senders, said.signers_user_id.as_deref(), self.policy);
        let found = self.farthest(by, said, &fitting)?;
        let shown =
            found.user_id.or_else(|| fitting.first().copied()).or_else(|| by.user_ids.first().map(Vec::as_slice));
        let root = self.roots.get(&by.certificate.to_string()).copied().unwrap_or(0);
        Ok(Signer {
            user_id: shown.unwrap_or(NO_USER_ID).to_vec(),
            amount: found.amount,
            level: level(found.amount, root, self.policy.amount),
            is_certified_since: found.is_certified_since && found.amount < self.policy.amount,
        })
    }

    /// The user ID that is reached farthest.
    fn farthest<'u>(&mut self, by: &By, said: &Said, user_ids: &[&'u [u8]]) -> Result<Found<'u>, Away> {
        let times = Times { signing: said.created.unwrap_or(0), now: self.now };
        let mut best = Found::default();
        // The first is the primary user ID, and mostly enough.
        let (first, rest) = user_ids.split_at(user_ids.len().min(1));
        for some in [first, rest] {
            if self.roots.is_empty() || some.is_empty() || best.amount >= self.policy.amount {
                continue;
            }
            let found = self.service.reach(self.roots, times, by.certificate, self.policy.amount, some)?;
            for (user_id, reach) in some.iter().zip(found) {
                best.is_certified_since |= reach.now >= self.policy.amount && reach.amount() < self.policy.amount;
                if reach.amount() > best.amount {
                    best = Found { user_id: Some(*user_id), amount: reach.amount(), ..best };
                }
            }
        }
        Ok(best)
    }
}

/// Of an amount, and of that of a root if the signer is one.
pub fn level(amount: u32, root: u32, wanted: u32) -> Level {
    match amount {
        _ if amount >= wanted && root >= wanted => Level::Ultimate,
        _ if amount >= wanted => Level::Fully,
        _ if amount >= MARGINAL => Level::Marginal,
        _ => Level::Undefined,
    }
}

/// The user IDs that may speak for the signer: those of the sender, or of whom the signature names, and those whom the
/// policy names.
fn fitting<'u>(user_ids: &'u [Vec<u8>], senders: &[OsString], named: Option<&[u8]>, policy: &Policy) -> Vec<&'u [u8]> {
    let address = |text: &[u8]| address_of(text);
    let is_same = |wanted: &[u8], user_id: &[u8]| {
        wanted == user_id || address(wanted).map_or(false, |wanted| address(user_id) == Some(wanted))
    };
    let is_of_sender = |user_id: &[u8]| match named {
        _ if !senders.is_empty() => senders.iter().any(|sender| is_same(sender.as_bytes(), user_id)),
        Some(named) => is_same(named, user_id),
        None => true,
    };
    let all = user_ids.iter().map(Vec::as_slice);
    all.filter(|user_id| is_of_sender(user_id) && policy.names(user_id)).take(MOST_USER_IDS).collect()
}

#[cfg(test)]
mod tests {
    use super::*;
    use crate::whom::Whom;

    #[test]
    fn levels_by_amounts() {
        for (amount, root, wanted, expected) in [
            (0, 0, 120, Level::Undefined),
            (39, 0, 120, Level::Undefined),
            (40, 0, 120, Level::Marginal),
            (119, 120, 120, Level::Marginal),
            (120, 0, 120, Level::Fully),
            (120, 120, 120, Level::Ultimate),
            (120, 60, 120, Level::Fully),
            (60, 0, 60, Level::Fully),
            (20, 0, 20, Level::Fully),
            (200, 0, 240, Level::Marginal),
            (0, 120, 120, Level::Undefined),
        ] {
            assert_eq!(level(amount, root, wanted), expected, "{amount} {root} {wanted}");
        }
    }

    #[test]
    fn who_may_speak_for_a_signer() {
        let user_ids: Vec<Vec<u8>> = [&b"B <b@x.org>"[..], b"B <b@y.org>", b"Bob"].map(<[u8]>::to_vec).to_vec();
        let count = |senders: &[&str], named: Option<&str>, whom: &[&str]| {
            let senders: Vec<OsString> = senders.iter().map(OsString::from).collect();
            let whom = whom.iter().map(|text| Whom::read(text).unwrap()).collect();
            let policy = Policy { whom, ..Policy::default() };
            let found = fitting(&user_ids, &senders, named.map(str::as_bytes), &policy);
            found.iter().map(|user_id| String::from_utf8_lossy(user_id).into_owned()).collect::<Vec<_>>().join(",")
        };
        assert_eq!(count(&[], None, &[]), "B <b@x.org>,B <b@y.org>,Bob");
        assert_eq!(count(&["B@Y.org"], None, &[]), "B <b@y.org>");
        assert_eq!(count(&[], Some("b@x.org"), &[]), "B <b@x.org>");
        assert_eq!(count(&[], Some("Bob"), &[]), "Bob");
        assert_eq!(count(&["b@y.org"], Some("b@x.org"), &[]), "B <b@y.org>");
        assert_eq!(count(&["mallory@x.org"], None, &[]), "");
        assert_eq!(count(&[], None, &["@x.org", "Bob"]), "B <b@x.org>,Bob");
        assert_eq!(count(&["b@y.org"], None, &["@x.org"]), "");
    }
}
