//! Which options gpg and gpgv have, by name, by letter, and by the beginning of a name.

use crate::table;

/// Which options a program has.
#[derive(Clone, Copy)]
pub struct Options {
    commands: &'static str,
    valued: &'static str,
    flags: &'static str,
    pub short: fn(u8) -> Option<&'static str>,
}

pub const GPG: Options =
    Options { commands: table::COMMANDS, valued: table::VALUED, flags: table::FLAGS, short: short_of_gpg };

pub const GPGV: Options =
    Options { commands: "", valued: table::GPGV_VALUED, flags: table::GPGV_FLAGS, short: short_of_gpgv };

fn short_of_gpg(letter: u8) -> Option<&'static str> {
    Some(match letter {
        b's' => "sign",
        b'b' => "detach-sign",
        b'e' => "encrypt",
        b'c' => "symmetric",
        b'd' => "decrypt",
        b'k' => "list-keys",
        b'K' => "list-secret-keys",
        b'v' => "verbose",
        b'q' => "quiet",
        b'n' => "dry-run",
        b'i' => "interactive",
        b'a' => "armor",
        b'o' => "output",
        b'u' => "local-user",
        b'r' => "recipient",
        b'R' => "hidden-recipient",
        b'f' => "recipient-file",
        b'F' => "hidden-recipient-file",
        b'N' => "set-notation",
        b'z' => "compress-level",
        b'h' => "help",
        _ => return None,
    })
}

fn short_of_gpgv(letter: u8) -> Option<&'static str> {
    Some(match letter {
        b'v' => "verbose",
        b'q' => "quiet",
        b'o' => "output",
        b'h' => "help",
        _ => return None,
    })
}

impl Options {
    /// The option of this name or of which this is the only beginning, as gpg has it.
    pub fn named(&self, given: &str) -> Option<&'static str> {
        let all = || [self.commands, self.valued, self.flags].into_iter().flat_map(str::split_ascii_whitespace);
        if let Some(name) = all().find(|name| *name == given) {
            return Some(name);
        }
        let mut found = all().filter(|name| name.starts_with(given));
        match (found.next(), found.next()) {
            (Some(name), None) if !given.is_empty() => Some(name),
            _ => None,
        }
    }

    pub fn has_value(&self, name: &str) -> bool {
        table::has(self.valued, name)
    }
}
