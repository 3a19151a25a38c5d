//! The command line as gpg reads it, and which of its options have a part in verifying.

use std::collections::VecDeque;
use std::ffi::{OsStr, OsString};
use std::os::unix::ffi::{OsStrExt, OsStringExt};

use crate::options::{Options, GPG, GPGV};
use crate::table;

#[derive(Clone, Copy, Debug, PartialEq, Eq)]
pub enum Command {
    /// None is named: gpg decides by what it reads.
    Guess,
    Verify,
    Decrypt,
    ListKeys,
    /// Nothing that is verified here.
    Other,
}

/// Where a stream of text goes.
#[derive(Clone, Debug, PartialEq, Eq)]
pub enum Place {
    Descriptor(i32),
    File(OsString),
}

/// A command line of gpg or gpgv.
#[derive(Debug)]
pub struct Call {
    pub command: Command,
    pub files: Vec<OsString>,
    pub status: Option<Place>,
    pub logger: Option<Place>,
    pub output: Option<OsString>,
    pub home: Option<OsString>,
    pub keyrings: Vec<OsString>,
    /// Whether gpg's own keyring is left out.
    pub has_own_keyring: bool,
    /// Addresses of whom the message is said to be.
    pub senders: Vec<OsString>,
    pub weak_digests: Vec<OsString>,
    pub is_batch: bool,
    pub is_quiet: bool,
    pub is_verbose: bool,
    pub has_special_names: bool,
    pub has_colons: bool,
    /// Whether files may be replaced.
    pub is_yes: bool,
    /// The options in their order, without those that say where status lines, text and content go.
    pub kept: Vec<OsString>,
    /// The first option that may change the answer, and that isn't known here.
    pub foreign: Option<String>,
}

impl Call {
    fn new(command: Command) -> Call {
        Call {
            command,
            files: Vec::new(),
            status: None,
            logger: None,
            output: None,
            home: None,
            keyrings: Vec::new(),
            has_own_keyring: true,
            senders: Vec::new(),
            weak_digests: Vec::new(),
            is_batch: false,
            is_quiet: false,
            is_verbose: false,
            has_special_names: false,
            has_colons: false,
            is_yes: false,
            kept: Vec::new(),
            foreign: None,
        }
    }

    /// Reads the words after gpg's name. Reading stops at an option that gpg doesn't have, which is `foreign` then.
    pub fn of_gpg(words: &[OsString]) -> Call {
        Reader::new(words, Call::new(Command::Guess), GPG).read()
    }

    /// Reads the words after gpgv's name.
    pub fn of_gpgv(words: &[OsString]) -> Call {
        Reader::new(words, Call::new(Command::Verify), GPGV).read()
    }

    fn name_foreign(&mut self, name: &str) {
        self.foreign.get_or_insert_with(|| name.to_owned());
    }

    fn set_command(&mut self, command: Command) {
        self.command = match self.command {
            Command::Guess => command,
            before if before == command => command,
            // Commands that don't go together: gpg says so, or takes both.
            _ => Command::Other,
        };
    }
}

struct Reader {
    words: VecDeque<OsString>,
    call: Call,
    options: Options,
}

impl Reader {
    fn new(words: &[OsString], call: Call, options: Options) -> Reader {
        Reader { words: words.iter().cloned().collect(), call, options }
    }

    fn read(mut self) -> Call {
        while let Some(word) = self.words.pop_front() {
            let octets = word.as_bytes();
            if octets == b"--" {
                break;
            }
            let is_known = match octets {
                [b'-', b'-', name @ ..] => self.long(name),
                [b'-', letters @ ..] if !letters.is_empty() && !is_special(octets) => self.short(letters),
                _ => {
                    // After the first file gpg takes nothing for an option.
                    self.words.push_front(word);
                    break;
                }
            };
            if !is_known {
                self.call.name_foreign(&word.to_string_lossy());
                return self.call;
            }
        }
        self.call.files = self.words.drain(..).collect();
        self.call
    }

    /// Whether the option is known.
    fn long(&mut self, octets: &[u8]) -> bool {
        let (name, joined) = match octets.iter().position(|octet| *octet == b'=') {
            Some(place) => (&octets[..place], Some(&octets[place + 1..])),
            None => (octets, None),
        };
        let name = match std::str::from_utf8(name).ok().and_then(|name| self.options.named(name)) {
            Some(name) => name,
            None => return false,
        };
        match (self.options.has_value(name), joined) {
            (false, None) => self.flag(name),
            (false, Some(_)) => return false,
            (true, Some(value)) => self.valued(name, OsStr::from_bytes(value).to_owned()),
            (true, None) => match self.words.pop_front() {
                Some(value) => self.valued(name, value),
                None => return false,
            },
        }
        true
    }

    fn short(&mut self, letters: &[u8]) -> bool {
        for (place, letter) in letters.iter().enumerate() {
            let name = match (self.options.short)(*letter) {
                Some(name) => name,
                None => return false,
            };
            if !self.options.has_value(name) {
                self.flag(name);
                continue;
            }
            let rest = &letters[place + 1..];
            let value = match rest.is_empty() {
                false => Some(OsString::from_vec(rest.to_vec())),
                true => self.words.pop_front(),
            };
            return match value {
                Some(value) => {
                    self.valued(name, value);
                    true
                }
                None => false,
            };
        }
        true
    }

    fn flag(&mut self, name: &'static str) {
        let call = &mut self.call;
        call.kept.push(format!("--{name}").into());
        match name {
            "verify" => call.set_command(Command::Verify),
            "decrypt" => call.set_command(Command::Decrypt),
            name if table::has(table::LISTINGS, name) => call.set_command(Command::ListKeys),
            "help" | "version" | "warranty" | "dump-options" | "dump-option-table" => call.command = Command::Other,
            "no-default-keyring" | "no-keyring" => call.has_own_keyring = false,
            "batch" => call.is_batch = true,
            "no-batch" => call.is_batch = false,
            "quiet" => call.is_quiet = true,
            "verbose" => call.is_verbose = true,
            "no-verbose" => call.is_verbose = false,
            "enable-special-filenames" => call.has_special_names = true,
            "with-colons" => call.has_colons = true,
            "yes" => call.is_yes = true,
            "no" => call.is_yes = false,
            name if table::has(table::COMMANDS, name) => call.command = Command::Other,
            name if table::has(table::IGNORED_FLAGS, name) => {}
            name => call.name_foreign(name),
        }
    }

    fn valued(&mut self, name: &'static str, value: OsString) {
        let call = &mut self.call;
        let is_of_a_stream = ["status-fd", "status-file", "logger-fd", "log-file", "logger-file", "output"];
        if !is_of_a_stream.contains(&name) {
            call.kept.extend([format!("--{name}").into(), value.clone()]);
        }
        match name {
            "status-fd" | "logger-fd" => match value.to_str().and_then(|digits| digits.trim_start().parse().ok()) {
                Some(number) if name == "status-fd" => call.status = Some(Place::Descriptor(number)),
                Some(number) => call.logger = Some(Place::Descriptor(number)),
                None => call.name_foreign(name),
            },
            "status-file" => call.status = Some(Place::File(value)),
            "log-file" | "logger-file" => call.logger = Some(Place::File(value)),
            "output" => call.output = Some(value),
            "homedir" => call.home = Some(value),
            "keyring" | "primary-keyring" => call.keyrings.push(value),
            "sender" => call.senders.push(value),
            "weak-digest" => call.weak_digests.push(value),
            name if table::has(table::IGNORED_VALUED, name) => {}
            name => call.name_foreign(name),
        }
    }
}

/// Whether a word is a special file name, `-&N`, and no group of options.
fn is_special(word: &[u8]) -> bool {
    word.starts_with(b"-&")
}

#[cfg(test)]
mod tests {
    use super::*;

    fn words(text: &str) -> Vec<OsString> {
        text.split_whitespace().map(OsString::from).collect()
    }

    fn gpg(text: &str) -> Call {
        Call::of_gpg(&words(text))
    }

    #[test]
    fn the_calls_of_programs_are_known() {
        for (text, files) in [
            ("--keyid-format=long --status-fd=1 --verify .git_vtag_tmpX -", ".git_vtag_tmpX -"),
            ("--status-fd=2 --no-verbose --quiet --batch --output - --verify SIG FILE", "SIG FILE"),
            (
                "--enable-special-filenames --disable-dirmngr --batch --no-sk-comments --lc-messages C --lc-ctype C \
                 --status-fd 3 --no-tty --charset utf8 --enable-progress-filter --exit-on-status-write-error \
                 --ttyname /dev/pts/1 --ttytype xterm --logger-fd 5 --verify -- -&7 -&9",
                "-&7 -&9",
            ),
            (
                "--verbose --no-secmem-warning --no-greeting --no-tty --batch --yes --status-fd=9 --verify-options \
                 show-photos --photo-viewer x --verify SIG -",
                "SIG -",
            ),
            ("--quiet --batch --status-file F --verify SIG -", "SIG -"),
            (
                "--status-fd 2 --no-tty --no-verbose --fixed-list-mode --batch --with-colons --verify SIG FILE",
                "SIG FILE",
            ),
            ("--batch --no-tty --armor --status-fd 5 --ignore-mdc-error --verify -- SIG DATA", "SIG DATA"),
            ("--no-tty --status-fd 1 --yes --command-fd 0 --output F --verify -- SIG DATA", "SIG DATA"),
        ] {
            let call = gpg(text);
            assert_eq!((call.command, &call.foreign), (Command::Verify, &None), "{text}");
            assert_eq!(call.files, words(files), "{text}");
            assert!(call.status.is_some());
        }
    }

    #[test]
    fn what_isnt_verified_is_another_command() {
        for text in [
            "--status-fd=2 -bsau KEY",
            "--import x",
            "--version",
            "-e -r bob x",
            "--verify --sign x",
            "-K",
            "--list-secret-keys x",
            "--with-colons --list-config",
            "--export --verify x",
        ] {
            assert_eq!(gpg(text).command, Command::Other, "{text}");
        }
    }

    #[test]
    fn keys_are_listed_by_several_commands() {
        for text in ["-k", "--list-keys x", "--list-sigs", "--with-colons --check-sigs x", "--fingerprint"] {
            assert_eq!(gpg(text).command, Command::ListKeys, "{text}");
        }
    }

    #[test]
    fn options_are_read_as_gpg_reads_them() {
        assert_eq!(gpg("--verif x").command, Command::Guess, "both --verify and --verify-files begin so");
        assert_eq!(gpg("--statu 3 --verify x").foreign.as_deref(), Some("--statu"));
        assert_eq!(gpg("--list-k").command, Command::Guess);
        assert_eq!(gpg("--enable-spec --verify x").has_special_names, true);
        let behind = gpg("x --verify --status-fd 1");
        assert_eq!((behind.command, behind.files.len(), behind.status), (Command::Guess, 4, None));
        assert_eq!(gpg("-vqo out --verify x").output, Some("out".into()));
        assert_eq!(gpg("-oout --verify x").output, Some("out".into()));
        assert_eq!(gpg("--status-fd 1 --status-fd 7 --verify x").status, Some(Place::Descriptor(7)));
        assert_eq!(gpg("--verify - x").files, words("- x"));
        assert_eq!(gpg("-qo out --status-fd=1 --homedir h --verify x").kept, words("--quiet --homedir h --verify"));
    }

    #[test]
    fn what_may_change_the_answer_is_foreign() {
        for (text, name) in [
            ("--faked-system-time 1 --verify x", "faked-system-time"),
            ("--skip-verify x", "skip-verify"),
            ("--no-such-thing --verify x", "--no-such-thing"),
            ("--options f --verify x", "options"),
            ("--verify --max-output 5 x", "max-output"),
            ("--status-fd x --verify y", "status-fd"),
            ("--verify --status-fd", "--status-fd"),
            ("--batch=1 --verify y", "--batch=1"),
            ("-Z --verify y", "-Z"),
        ] {
            assert_eq!(gpg(text).foreign.as_deref(), Some(name), "{text}");
        }
    }

    #[test]
    fn gpgv_has_few_options() {
        let call = Call::of_gpgv(&words("--homedir T --keyring K --ignore-time-conflict --status-fd 3 SIG DATA"));
        assert_eq!((call.command, call.keyrings.len(), call.files.len()), (Command::Verify, 1, 2));
        assert_eq!(Call::of_gpgv(&words("--verify x")).foreign.as_deref(), Some("--verify"));
        assert_eq!(Call::of_gpgv(&words("--version")).command, Command::Other);
    }
}
