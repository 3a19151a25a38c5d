//! The files that a caller names, as gpg takes them: `-` is standard input, and `-&N` a descriptor if that is allowed.

use std::ffi::OsStr;
use std::io::{self, Read};
use std::os::unix::ffi::OsStrExt;
use std::path::{Path, PathBuf};

use tukyamid_verify::opening::{self, Source};

use crate::streams::descriptor;

/// A file of signatures is no longer than this.
const LONGEST_SIGNATURES: u64 = 1 << 24;

pub struct Names {
    pub has_special: bool,
}

impl Names {
    pub fn open(&self, name: &OsStr) -> io::Result<Source> {
        match self.descriptor_of(name) {
            Some(number) => descriptor(number).map(Source::of),
            None => opening::open(Path::new(name)),
        }
    }

    /// The descriptor that a name refers to.
    pub fn descriptor_of(&self, name: &OsStr) -> Option<i32> {
        match name.as_bytes() {
            b"-" => Some(0),
            [b'-', b'&', digits @ ..] if self.has_special => std::str::from_utf8(digits).ok()?.parse().ok(),
            _ => None,
        }
    }

    /// The file that gpg takes for the data if only the signature is named: its name without the ending.
    pub fn data_of(&self, signature: &OsStr) -> Option<PathBuf> {
        let path = Path::new(signature);
        if self.descriptor_of(signature).is_some() {
            return None;
        }
        let is_known = matches!(path.extension()?.to_str()?, "sig" | "asc" | "sign");
        Some(path.with_extension("")).filter(|data| is_known && data.is_file())
    }
}

/// All of a file of signatures.
pub fn read_signatures(file: &mut impl Read) -> io::Result<Vec<u8>> {
    let mut octets = Vec::new();
    file.take(LONGEST_SIGNATURES + 1).read_to_end(&mut octets)?;
    if octets.len() as u64 > LONGEST_SIGNATURES {
        return Err(io::Error::new(io::ErrorKind::InvalidData, "there are more than 16,777,216 bytes of signatures"));
    }
    Ok(octets)
}

#[cfg(test)]
mod tests {
    use super::*;

    #[test]
    fn special_names_need_the_option() {
        let (with, without) = (Names { has_special: true }, Names { has_special: false });
        assert_eq!(with.descriptor_of(OsStr::new("-&7")), Some(7));
        assert_eq!(without.descriptor_of(OsStr::new("-&7")), None);
        assert_eq!(without.descriptor_of(OsStr::new("-")), Some(0));
        assert_eq!(with.descriptor_of(OsStr::new("-&x")), None);
        assert!(with.data_of(OsStr::new("-")).is_none());
    }
}
