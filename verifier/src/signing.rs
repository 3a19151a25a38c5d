//! Whether a key of a certificate could sign data at a time (RFC 9580, sections 5.2.3.10, 5.2.3.13 and 5.2.3.29), as
//! Sequoia's policy has it.

use std::collections::HashMap;

use crate::bound::{Bound, Own};
use crate::facts::Facts;
use crate::keys::Parts;
use crate::number::Place;

/// The flag of keys that may sign data (RFC 9580, section 5.2.3.29).
const SIGNS: u8 = 2;

impl Bound<'_> {
    /// Whether the key or a subkey could sign at a time; an Err says why not.
    pub fn could_sign(&self, key: &[u8], time: u64) -> Result<(), &'static str> {
        let governing = self.governing(time).ok_or("no signature binds the certificate at that time")?;
        if self.is_revoked(governing[0], Place::Key, &[], time) {
            return Err("the certificate is revoked");
        }
        let validity = governing.iter().find_map(|own| own.facts.key_validity);
        check_alive(self.key, validity, time).map_err(|()| "the certificate isn't valid at that time")?;
        if key == self.key {
            return check_flags(governing.iter().find_map(|own| own.facts.flags));
        }
        self.could_subkey_sign(key, time)
    }

    fn could_subkey_sign(&self, subkey: &[u8], time: u64) -> Result<(), &'static str> {
        let binding = newest(self.live(Place::Subkey, time).filter(|own| own.component == subkey));
        let binding = binding.ok_or("no signature binds the key at that time")?;
        if self.is_revoked(binding, Place::Subkey, subkey, time) {
            return Err("the key is revoked");
        }
        check_alive(subkey, binding.facts.key_validity, time).map_err(|()| "the key isn't valid at that time")?;
        check_flags(binding.facts.flags)?;
        match &binding.agreed {
            Some(facts) if facts.is_live(time) => Ok(()),
            _ => Err("the key hasn't signed that it belongs to the certificate"),
        }
    }

    /// When a key or a subkey expires by what its certificate says at a time: the earlier of its own end and of that of
    /// the primary key. None if it doesn't.
    pub fn end(&self, key: &[u8], time: u64) -> Option<u64> {
        let governing = self.governing(time).unwrap_or_default();
        let end = |key: &[u8], validity: Option<u32>| {
            let validity = validity.filter(|validity| *validity != 0)?;
            Some(u64::from(Parts::read(key)?.created) + u64::from(validity))
        };
        let own = end(self.key, governing.iter().find_map(|own| own.facts.key_validity));
        let binding = newest(self.live(Place::Subkey, time).filter(|own| own.component == key));
        let of_subkey = binding.and_then(|binding| end(key, binding.facts.key_validity));
        own.into_iter().chain(of_subkey).min()
    }

    /// Whether the key is or ever was meant to sign data by what its certificate says, whenever that was.
    pub fn is_meant_for_signing(&self, key: &[u8]) -> bool {
        let is_for_signing = |own: &&Own| own.facts.flags.map_or(false, |flags| flags & SIGNS != 0);
        let of = |place: Place| self.signatures.iter().filter(move |own| own.place == place);
        if key == self.key {
            return of(Place::Key).chain(of(Place::UserId)).any(|own| is_for_signing(&own));
        }
        of(Place::Subkey).any(|own| own.component == key && own.agreed.is_some() && is_for_signing(&own))
    }

    /// Whether the key has revoked itself, or this subkey, by a time: whatever came after it, and for whatever reason.
    pub fn has_revoked(&self, key: &[u8], time: u64) -> bool {
        let is_there = |place: Place, component: &[u8]| {
            let counts = |facts: &Facts| facts.is_hard() || u64::from(facts.created) <= time;
            self.revocations.get(&(place, component)).map_or(false, |found| found.iter().any(counts))
        };
        is_there(Place::Key, &[]) || is_there(Place::Subkey, key)
    }

    /// The signatures that speak for the primary key at a time, the one that decides first: in version 6 the newest
    /// direct key signature, in version 4 that of the primary user ID before it.
    fn governing(&self, time: u64) -> Option<Vec<&Own>> {
        let direct = newest(self.live(Place::Key, time));
        let user_id = match self.key[0] {
            6 => None,
            _ => self.primary_user_id(time),
        };
        let found: Vec<&Own> = user_id.into_iter().chain(direct).collect();
        (!found.is_empty()).then(|| found)
    }

    /// The signature on the primary user ID at a time: one that isn't revoked before one that is, one that is marked
    /// before others, and the newest.
    pub fn primary_user_id(&self, time: u64) -> Option<&Own> {
        // Of each user ID only its newest speaks for it.
        let mut newest: HashMap<&[u8], &Own> = HashMap::new();
        for own in self.live(Place::UserId, time) {
            let kept = newest.entry(own.component).or_insert(own);
            if kept.facts.created < own.facts.created {
                *kept = own;
            }
        }
        newest.into_values().max_by_key(|own| {
            let is_revoked = self.is_revoked(own, Place::UserId, own.component, time);
            (!is_revoked, own.facts.is_primary_user_id, own.facts.created, own.component)
        })
    }

    fn live(&self, place: Place, time: u64) -> impl Iterator<Item = &Own> {
        self.signatures.iter().filter(move |own| own.place == place && own.facts.is_live(time))
    }

    /// Whether a revocation counts: a hard one at any time, another one while it is live, unless what it revokes is
    /// newer.
    fn is_revoked(&self, bound: &Own, place: Place, component: &[u8], time: u64) -> bool {
        let counts = |revocation: &Facts| {
            revocation.is_hard() || (revocation.created >= bound.facts.created && revocation.is_live(time))
        };
        self.revocations.get(&(place, component)).map_or(false, |revocations| revocations.iter().any(counts))
    }
}

fn newest<'o, 'a>(signatures: impl Iterator<Item = &'o Own<'a>>) -> Option<&'o Own<'a>>
where
    'a: 'o,
{
    signatures.max_by_key(|own| own.facts.created)
}

fn check_alive(key: &[u8], validity: Option<u32>, time: u64) -> Result<(), ()> {
    let created = u64::from(Parts::read(key).ok_or(())?.created);
    let is_ended = validity.map_or(false, |validity| validity != 0 && created + u64::from(validity) <= time);
    if created <= time && !is_ended { Ok(()) } else { Err(()) }
}

fn check_flags(flags: Option<u8>) -> Result<(), &'static str> {
    match flags {
        Some(flags) if flags & SIGNS != 0 => Ok(()),
        _ => Err("the key isn't meant for signing"),
    }
}
