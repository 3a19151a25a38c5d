//! The messages to a user on standard error.

use std::fmt;

use crate::packets::Fault;

/// Something of the input that isn't written unchanged.
#[derive(Clone, Debug, PartialEq, Eq)]
pub struct Notice {
    /// The file, as it was named.
    pub name: String,
    /// The octet of the file's packets at which it is.
    pub place: usize,
    pub what: What,
}

#[derive(Clone, Debug, PartialEq, Eq)]
pub enum What {
    /// A packet whose length the engine refuses is written with a definite one; nothing is left out.
    Respelled,
    Secret,
    PublicPart,
    Compressed,
    Kind(u8),
    Long,
    Fault(Fault),
    BeforeFirst,
    Empty,
    Misfiled,
    Armor(String),
}

impl What {
    pub fn is_left_out(&self) -> bool {
        *self != What::Respelled
    }
}

impl fmt::Display for Notice {
    fn fmt(&self, f: &mut fmt::Formatter<'_>) -> fmt::Result {
        write!(f, "{}: octet {}: ", self.name, self.place)?;
        match &self.what {
            What::Respelled => write!(f, "a packet of partial or indeterminate length; written with a definite one"),
            What::Secret => write!(f, "a secret key; left out (--public writes its public parts)"),
            What::PublicPart => write!(f, "a secret key whose public part can't be determined; left out"),
            What::Compressed => write!(f, "a certificate with compressed data; left out"),
            What::Kind(kind) => write!(f, "a certificate with a packet of type {kind}, which isn't allowed; left out"),
            What::Long => write!(f, "a certificate that is too long for a line; left out"),
            What::Fault(fault) => write!(f, "{fault}; what begins here is left out"),
            What::BeforeFirst => write!(f, "a packet before the first key; left out"),
            What::Empty => write!(f, "no certificate"),
            What::Misfiled => write!(f, "not the one certificate of this name; left out"),
            What::Armor(why) => write!(f, "armor that can't be read ({why}); left out"),
        }
    }
}
