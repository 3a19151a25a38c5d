//! Which program this is asked to be: its own name decides.

use std::ffi::OsStr;
use std::path::Path;

#[derive(Clone, Copy, Debug, PartialEq, Eq)]
pub enum Program {
    Gpg,
    Gpgv,
    Gpgconf,
    Sopv,
}

impl Program {
    /// By the name under which it was started: `gpg2`, `/usr/lib/tukyamid/gpgv`, `tukyamid-gpg`.
    pub fn named(name: &OsStr) -> Program {
        let base = Path::new(name).file_name().unwrap_or_default().to_string_lossy();
        match base.trim_start_matches("tukyamid-") {
            "gpgv" | "gpgv2" => Program::Gpgv,
            "gpgconf" => Program::Gpgconf,
            "sopv" => Program::Sopv,
            _ => Program::Gpg,
        }
    }

    /// The names of the real program, the usual one first.
    pub fn real_names(self) -> &'static [&'static str] {
        match self {
            Program::Gpg => &["gpg", "gpg2"],
            Program::Gpgv => &["gpgv", "gpgv2"],
            Program::Gpgconf => &["gpgconf"],
            Program::Sopv => &["sopv"],
        }
    }
}

#[cfg(test)]
mod tests {
    use super::*;

    #[test]
    fn the_name_decides() {
        for (name, program) in [
            ("gpg", Program::Gpg),
            ("/usr/bin/gpg2", Program::Gpg),
            ("tukyamid-gpg", Program::Gpg),
            ("x/gpgv", Program::Gpgv),
            ("gpgv2", Program::Gpgv),
            ("tukyamid-gpgv", Program::Gpgv),
            ("gpgconf", Program::Gpgconf),
            ("tukyamid-sopv", Program::Sopv),
            ("anything", Program::Gpg),
            ("", Program::Gpg),
        ] {
            assert_eq!(Program::named(OsStr::new(name)), program, "{name}");
        }
    }
}
