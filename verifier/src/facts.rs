//! What the hashed area of a signature says (RFC 9580, section 5.2.3.7), as far as it decides who could sign when.

/// Subpackets that may be critical: they are heeded here, or say nothing about who could sign.
const KNOWN: [u8; 26] =
    [2, 3, 4, 5, 6, 7, 9, 11, 12, 16, 21, 22, 23, 24, 25, 26, 27, 28, 29, 30, 31, 32, 33, 34, 35, 39];

#[derive(Debug, PartialEq, Eq)]
pub struct Facts {
    /// Seconds since 1970, as all times.
    pub created: u32,
    /// When the signature expires.
    expires: Option<u64>,
    /// How long its key is valid from the key's creation on; 0 is for ever.
    pub key_validity: Option<u32>,
    pub flags: Option<u8>,
    pub is_primary_user_id: bool,
    revocation_reason: Option<u8>,
}

/// Why a signature doesn't count, whoever made it.
#[derive(Debug, PartialEq, Eq)]
pub enum Unfit {
    Malformed,
    /// A critical subpacket of this type isn't known.
    Critical(u8),
}

impl Facts {
    /// Of the subpackets of a hashed area, each from its type on. The last of several of one type counts.
    pub fn of(subpackets: &[&[u8]]) -> Result<Facts, Unfit> {
        let mut created = None;
        let mut validity = 0;
        let mut facts = Facts {
            created: 0, expires: None, key_validity: None, flags: None, is_primary_user_id: false,
            revocation_reason: None,
        };
        for subpacket in subpackets {
            let (kind, content) = subpacket.split_first().ok_or(Unfit::Malformed)?;
            match kind & 0x7f {
                2 => created = Some(number(content)?),
                3 => validity = number(content)?,
                9 => facts.key_validity = Some(number(content)?),
                25 => facts.is_primary_user_id = content.first().map_or(false, |octet| *octet != 0),
                27 => facts.flags = Some(content.first().copied().unwrap_or(0)),
                29 => facts.revocation_reason = Some(*content.first().ok_or(Unfit::Malformed)?),
                other if kind & 0x80 != 0 && !KNOWN.contains(&other) => return Err(Unfit::Critical(other)),
                _ => {}
            }
        }
        facts.created = created.ok_or(Unfit::Malformed)?;
        facts.expires = (validity != 0).then(|| u64::from(facts.created) + u64::from(validity));
        Ok(facts)
    }

    /// Whether the signature was there at a time, and hadn't expired.
    pub fn is_live(&self, time: u64) -> bool {
        u64::from(self.created) <= time && self.expires.map_or(true, |end| time < end)
    }

    /// Whether a revocation is for all times: it isn't if the key was superseded or retired, or its user ID dropped.
    pub fn is_hard(&self) -> bool {
        !matches!(self.revocation_reason, Some(1 | 3 | 32))
    }
}

fn number(content: &[u8]) -> Result<u32, Unfit> {
    content.try_into().map(u32::from_be_bytes).map_err(|_| Unfit::Malformed)
}

#[cfg(test)]
mod tests {
    use super::*;

    const CREATED: &[u8] = &[2, 0, 0, 0, 100];

    #[test]
    fn a_signature_is_live_from_its_creation_to_its_end() {
        let lasting = Facts::of(&[CREATED]).unwrap();
        assert_eq!([99, 100, 1 << 40].map(|time| lasting.is_live(time)), [false, true, true]);
        let ending = Facts::of(&[CREATED, &[3, 0, 0, 0, 10]]).unwrap();
        assert_eq!([99, 100, 109, 110].map(|time| ending.is_live(time)), [false, true, true, false]);
        let long = Facts::of(&[&[2, 0xff, 0xff, 0xff, 0xff], &[3, 0xff, 0xff, 0xff, 0xff]]).unwrap();
        assert!(long.is_live(0xffff_ffff + 0xffff_fffe));
    }

    #[test]
    fn the_last_of_a_type_counts() {
        let facts = Facts::of(&[CREATED, &[27, 1], &[27 | 0x80, 2, 0], &[9, 0, 0, 0, 7], &[25, 1]]).unwrap();
        assert_eq!((facts.flags, facts.key_validity, facts.is_primary_user_id), (Some(2), Some(7), true));
    }

    #[test]
    fn what_makes_a_signature_unfit() {
        assert_eq!(Facts::of(&[]), Err(Unfit::Malformed));
        assert_eq!(Facts::of(&[&[2, 0, 0, 1]]), Err(Unfit::Malformed));
        assert_eq!(Facts::of(&[CREATED, &[]]), Err(Unfit::Malformed));
        assert_eq!(Facts::of(&[CREATED, &[0x80 | 20, 0]]), Err(Unfit::Critical(20)));
        assert!(Facts::of(&[CREATED, &[20, 0], &[0x80 | 5, 1, 60]]).is_ok());
    }

    #[test]
    fn revocations_are_soft_for_three_reasons() {
        let hard = |reason: &[u8]| Facts::of(&[CREATED, reason]).unwrap().is_hard();
        assert_eq!([0, 1, 2, 3, 32].map(|reason| hard(&[29, reason])), [true, false, true, false, false]);
        assert!(hard(&[27, 0]));
    }
}
