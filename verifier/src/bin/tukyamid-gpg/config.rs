//! The configuration file: the user's trust roots, and what is asked of signers for each program that asks.
//!
//! A file that can't be used is an error, and never means that there are no roots.

use std::collections::BTreeMap;
use std::env;
use std::ffi::OsString;
use std::fmt;
use std::fs::{self, File, Metadata};
use std::io::{self, Read};
use std::os::unix::fs::MetadataExt;
use std::path::{Path, PathBuf};
use std::thread;

use toml::value::{Table, Value};

use crate::way;
use crate::whom::Whom;

const HOST_FILE: &str = "/etc/tukyamid/config.toml";
/// Names another file, which has to be there.
const VARIABLE: &str = "TUKYAMID_CONFIG";
const LONGEST: u64 = 1 << 16;
const FULL: u32 = 120;
const MOST_ROOTS: usize = 1000;
const MOST_SIGNERS: i64 = 64;
const MOST_SETS: usize = 64;
/// A key has few parts. Python's reader takes minutes for one that has thousands.
const MOST_DOTS: usize = 100;
/// A level takes less than 1 KiB of stack, and every thread has some MiB.
const SHALLOW: usize = 1000;
const DEEP_STACK: usize = (LONGEST as usize + 1) << 12;

/// What a signer has to be.
#[derive(Clone, Debug, PartialEq, Eq)]
pub struct Policy {
    /// From this amount on a signer counts as fully trusted.
    pub amount: u32,
    /// Empty if anybody may sign.
    pub whom: Vec<Whom>,
    /// How many signers are needed.
    pub threshold: usize,
    /// Whether what the engine doesn't reach is refused.
    pub is_strict: bool,
}

impl Default for Policy {
    fn default() -> Policy {
        Policy { amount: FULL, whom: Vec::new(), threshold: 1, is_strict: false }
    }
}

impl Policy {
    /// Whether somebody with this user ID may sign.
    pub fn names(&self, user_id: &[u8]) -> bool {
        self.whom.is_empty() || self.whom.iter().any(|one| one.is_named_by(user_id))
    }
}

#[derive(Debug, Default)]
pub struct Config {
    /// Each root's fingerprint, in lower-case digits, with its amount.
    pub roots: BTreeMap<String, u32>,
    pub socket: Option<PathBuf>,
    /// GnuPG's folders for which the engine answers, besides the usual one.
    pub homes: Vec<PathBuf>,
    policy: Policy,
    callers: BTreeMap<String, Policy>,
}

/// Why a file can't be used.
#[derive(Debug, PartialEq, Eq)]
pub struct Unusable {
    path: PathBuf,
    why: String,
}

impl fmt::Display for Unusable {
    fn fmt(&self, f: &mut fmt::Formatter<'_>) -> fmt::Result {
        write!(f, "{}: {}", self.path.display(), self.why)
    }
}

impl Config {
    /// The user's file, or else the host's; without either there are no roots.
    pub fn load() -> Result<Config, Unusable> {
        if let Some(path) = env::var_os(VARIABLE).filter(|path| !path.is_empty()).map(PathBuf::from) {
            let absent = || Unusable { path: path.clone(), why: format!("{VARIABLE} names it, and it isn't there") };
            return Config::of_file(&path)?.ok_or_else(absent);
        }
        for path in user_file().into_iter().chain([PathBuf::from(HOST_FILE)]) {
            if let Some(config) = Config::of_file(&path)? {
                return Ok(config);
            }
        }
        Ok(Config::default())
    }

    /// None if there is no such file.
    pub fn of_file(path: &Path) -> Result<Option<Config>, Unusable> {
        let unusable = |why: String| Unusable { path: path.to_owned(), why };
        let text = match read(path) {
            Ok(text) => text,
            Err(error) if is_absent(&error) => return Ok(None),
            Err(error) => return Err(unusable(error.to_string())),
        };
        let config = if is_deep(&text) { parse_deep(text) } else { Config::parse(&text) };
        config.map(Some).map_err(unusable)
    }

    pub fn parse(text: &str) -> Result<Config, String> {
        check_characters(text)?;
        // Only as a value the library refuses a key that is there twice. Its words quote the line, which may be long.
        let value: Value = toml::from_str(text).map_err(|error| error.to_string())?;
        let table = value.as_table().ok_or("it isn't a table")?;
        Config::of_table(table)
    }

    fn of_table(table: &Table) -> Result<Config, String> {
        let mut config = Config { policy: policy_of(table, &Policy::default())?, ..Config::default() };
        for (key, value) in table {
            match key.as_str() {
                "roots" => config.roots = roots(key, value)?,
                "sets" => check_sets(value)?,
                "socket" => config.socket = Some(absolute(key, value)?),
                "homes" => config.homes = absolutes(key, &texts(key, value)?)?,
                "inputs" => check_inputs(&texts(key, value)?)?,
                "caller" => config.callers = callers(value, &config.policy)?,
                key if is_of_policy(key) => {}
                key => return Err(format!("the key {key:?} isn't known")),
            }
        }
        Ok(config)
    }

    /// The policy of the first of these callers that has one, or that for all.
    pub fn policy_for(&self, callers: &[String]) -> &Policy {
        callers.iter().find_map(|name| self.callers.get(name)).unwrap_or(&self.policy)
    }

    /// Whether this program has a table of its own.
    pub fn has_caller(&self, name: &str) -> bool {
        self.callers.contains_key(name)
    }

    /// Whether any program has a table of its own, so that it matters which one asks.
    pub fn has_callers(&self) -> bool {
        !self.callers.is_empty()
    }
}

/// TOML has no control characters, and no mark of the order of octets. The library takes some of them.
fn check_characters(text: &str) -> Result<(), String> {
    let is_wrong = |character: char| character.is_control() && !matches!(character, '\t' | '\n' | '\r' | '\u{80}'..);
    if text.starts_with('\u{feff}') || text.contains(is_wrong) {
        return Err("it has a control character, or begins with a byte order mark".to_owned());
    }
    let mut parts = text.split(&['=', '[', ']', '{', '}', ',', '#', '\n'][..]);
    match parts.any(|part| part.matches('.').count() >= MOST_DOTS) {
        true => Err("it is nested too deeply".to_owned()),
        false => Ok(()),
    }
}

/// Whether its values may be nested so deeply that the library, which calls itself for each level, lacks stack.
fn is_deep(text: &str) -> bool {
    text.bytes().filter(|octet| matches!(octet, b'[' | b'{')).count() > SHALLOW
}

/// Reads a text with a stack for as many levels as its length allows.
fn parse_deep(text: String) -> Result<Config, String> {
    let reader = thread::Builder::new().stack_size(DEEP_STACK).spawn(move || Config::parse(&text));
    let reader = reader.map_err(|error| format!("it is nested too deeply: {error}"))?;
    reader.join().unwrap_or_else(|_| Err("it can't be read".to_owned()))
}

/// `$XDG_CONFIG_HOME/tukyamid/config.toml`.
fn user_file() -> Option<PathBuf> {
    let named = |name: &str| env::var_os(name).filter(|value: &OsString| !value.is_empty()).map(PathBuf::from);
    let folder = named("XDG_CONFIG_HOME").filter(|folder| folder.is_absolute());
    let folder = folder.or_else(|| named("HOME").map(|home| home.join(".config")))?;
    Some(folder.join("tukyamid/config.toml"))
}

fn is_absent(error: &io::Error) -> bool {
    matches!(error.raw_os_error(), Some(libc::ENOENT | libc::ENOTDIR))
}

fn read(path: &Path) -> io::Result<String> {
    // A FIFO has no writer, perhaps.
    let mut file = open_without_waiting(path)?;
    let found = file.metadata()?;
    if !found.is_file() {
        return Err(invalid("it isn't a regular file"));
    }
    check_owner(&found, "it")?;
    if let Some(folder) = path.parent() {
        check_owner(&fs::metadata(folder)?, "its directory")?;
    }
    way::check(path)?;
    let mut octets = Vec::new();
    Read::by_ref(&mut file).take(LONGEST + 1).read_to_end(&mut octets)?;
    if octets.len() as u64 > LONGEST {
        return Err(invalid("it has more than 65,536 bytes"));
    }
    String::from_utf8(octets).map_err(|_| invalid("it isn't UTF-8"))
}

fn open_without_waiting(path: &Path) -> io::Result<File> {
    use std::os::unix::fs::OpenOptionsExt;
    fs::OpenOptions::new().read(true).custom_flags(libc::O_NONBLOCK).open(path)
}

/// Nobody else may have written it.
fn check_owner(found: &Metadata, what: &str) -> io::Result<()> {
    let own = unsafe { libc::geteuid() };
    if found.uid() != own && found.uid() != 0 {
        return Err(invalid(&format!("{what} belongs to user {}, not to you or root", found.uid())));
    }
    if found.mode() & 0o022 != 0 {
        return Err(invalid(&format!("{what} can be written by other users: chmod go-w")));
    }
    Ok(())
}

fn invalid(why: &str) -> io::Error {
    io::Error::new(io::ErrorKind::InvalidData, why)
}

fn roots(what: &str, value: &Value) -> Result<BTreeMap<String, u32>, String> {
    let table = value.as_table().ok_or(format!("{what} isn't a table of fingerprints"))?;
    if table.len() > MOST_ROOTS {
        return Err(format!("{what} has more than {MOST_ROOTS} entries"));
    }
    let mut roots = BTreeMap::new();
    for (digits, amount) in table {
        let is_fingerprint = matches!(digits.len(), 40 | 64) && digits.bytes().all(|digit| digit.is_ascii_hexdigit());
        if !is_fingerprint {
            return Err(format!("{what}: {digits:?} isn't a fingerprint of 40 or 64 digits"));
        }
        let amount = number(&format!("{what}: {digits}"), amount, 1, 255)?;
        if roots.insert(digits.to_ascii_lowercase(), amount as u32).is_some() {
            return Err(format!("{what}: {digits} is there twice"));
        }
    }
    Ok(roots)
}

/// The sets of roots that the page for everyone offers. They aren't used here, but what is refused there is refused
/// here too.
fn check_sets(value: &Value) -> Result<(), String> {
    let table = value.as_table().ok_or("sets isn't a table of sets")?;
    if table.len() > MOST_SETS {
        return Err(format!("sets has more than {MOST_SETS} entries"));
    }
    for (name, value) in table {
        if !is_caller(&name.to_ascii_lowercase()) {
            return Err(format!("sets: {name:?} isn't a name of 1 to 32 letters, digits, - and _"));
        }
        if roots(&format!("sets.{name}"), value)?.is_empty() {
            return Err(format!("sets.{name} has no roots"));
        }
    }
    Ok(())
}

fn callers(value: &Value, default: &Policy) -> Result<BTreeMap<String, Policy>, String> {
    let mut callers = BTreeMap::new();
    for (name, value) in value.as_table().ok_or("caller isn't a table of programs")? {
        if !is_caller(name) {
            return Err(format!("caller: {name:?} isn't the name of a program"));
        }
        let table = value.as_table().ok_or(format!("caller.{name} isn't a table"))?;
        if let Some(key) = table.keys().find(|key| !is_of_policy(key)) {
            return Err(format!("caller.{name}: the key {key:?} isn't known"));
        }
        let policy = policy_of(table, default).map_err(|why| format!("caller.{name}: {why}"))?;
        callers.insert(name.clone(), policy);
    }
    Ok(callers)
}

/// 1 to 32 of the characters `a` to `z`, `0` to `9`, `-` and `_`.
pub fn is_caller(name: &str) -> bool {
    let is_fit = |octet: u8| matches!(octet, b'a'..=b'z' | b'0'..=b'9' | b'-' | b'_');
    matches!(name.len(), 1..=32) && name.bytes().all(is_fit)
}

fn is_of_policy(key: &str) -> bool {
    matches!(key, "amount" | "for" | "threshold" | "strict")
}

fn policy_of(table: &Table, default: &Policy) -> Result<Policy, String> {
    let mut policy = default.clone();
    if let Some(value) = table.get("amount") {
        policy.amount = number("amount", value, 1, u32::MAX.into())? as u32;
    }
    if let Some(value) = table.get("threshold") {
        policy.threshold = number("threshold", value, 1, MOST_SIGNERS)? as usize;
    }
    if let Some(value) = table.get("strict") {
        policy.is_strict = value.as_bool().ok_or("strict is neither true nor false")?;
    }
    if let Some(value) = table.get("for") {
        let whom: Result<_, _> = texts("for", value)?.iter().map(|text| Whom::read(text)).collect();
        policy.whom = whom?;
        if policy.whom.is_empty() {
            return Err("for names nobody".to_owned());
        }
    }
    Ok(policy)
}

fn number(what: &str, value: &Value, least: i64, most: i64) -> Result<i64, String> {
    let number = value.as_integer().filter(|number| (least..=most).contains(number));
    number.ok_or(format!("{what} isn't a number from {least} to {most}"))
}

fn texts(what: &str, value: &Value) -> Result<Vec<String>, String> {
    let list = value.as_array().ok_or(format!("{what} isn't a list of texts"))?;
    let text = |item: &Value| item.as_str().map(str::to_owned).ok_or(format!("{what} isn't a list of texts"));
    list.iter().map(text).collect()
}

/// What the command reads. It isn't used here, but what the command refuses is refused here too.
fn check_inputs(inputs: &[String]) -> Result<(), String> {
    let is_service = |input: &String| input == "service";
    if inputs.is_empty() || (inputs.len() > 1 && inputs.iter().any(is_service)) {
        return Err("inputs is either [\"service\"], or a list of \"gpg\" and absolute paths".to_owned());
    }
    let paths: Vec<String> = inputs.iter().filter(|input| !is_service(input) && *input != "gpg").cloned().collect();
    absolutes("inputs", &paths).map(drop)
}

fn absolutes(what: &str, paths: &[String]) -> Result<Vec<PathBuf>, String> {
    match paths.iter().find(|path| !Path::new(path).is_absolute()) {
        Some(path) => Err(format!("{what}: {path:?} isn't an absolute path")),
        None => Ok(paths.iter().map(PathBuf::from).collect()),
    }
}

fn absolute(what: &str, value: &Value) -> Result<PathBuf, String> {
    let path = value.as_str().map(PathBuf::from).filter(|path| path.is_absolute());
    path.ok_or(format!("{what} isn't an absolute path"))
}

#[cfg(test)]
mod tests {
    use super::*;

    const FPR: &str = "FB88f0d227c941044d81b8634ea7c2c11011dca1";

    #[test]
    fn a_whole_file() {
        let text = format!(
            "amount = 100\nstrict = false\ninputs = [\"service\"]\nhomes = [\"/etc/pacman.d/gnupg\"]\n\
             socket = \"/run/x\"\n[roots]\n{FPR} = 60\n[caller.git]\nfor = [\"@example.org\"]\nstrict = true\n\
             [caller.apt]\namount = 240\nthreshold = 2\n[sets.Debian]\n{FPR} = 120\n"
        );
        let config = Config::parse(&text).unwrap();
        assert_eq!(config.roots, BTreeMap::from([(FPR.to_ascii_lowercase(), 60)]));
        assert_eq!(config.socket, Some("/run/x".into()));
        let policy = |names: &[&str]| {
            let names: Vec<String> = names.iter().map(|name| (*name).to_owned()).collect();
            let policy = config.policy_for(&names);
            (policy.amount, policy.whom.len(), policy.threshold, policy.is_strict)
        };
        assert_eq!(policy(&["sh", "git", "apt"]), (100, 1, 1, true));
        assert_eq!(policy(&["apt-key", "apt"]), (240, 0, 2, false));
        assert_eq!(policy(&[]), (100, 0, 1, false));
    }

    #[test]
    fn a_damaged_file_never_means_no_roots() {
        for text in [
            "roots = 1",
            "[roots]\nabc = 120",
            &format!("[roots]\n{FPR} = 0"),
            &format!("[roots]\n{FPR} = 256"),
            &format!("[roots]\n{FPR} = \"120\""),
            &format!("[roots]\n{FPR} = 1\n{FPR} = 2"),
            &format!("[roots]\n{FPR} = 1\n{} = 2", FPR.to_ascii_lowercase()),
            "[root]\n",
            "strikt = true",
            "strict = 1",
            "amount = 0",
            "amount = 4294967296",
            "threshold = 65",
            "for = []",
            "for = [\"\"]",
            "for = \"@example.org\"",
            "socket = \"run\"",
            "homes = [\"gnupg\"]",
            "[caller.Git]\nstrict = true",
            "[caller.git]\nroots = 1",
            "caller = 1",
            "[caller]\ngit = 1",
            "x",
            "[roots",
            "inputs = [1]",
            "inputs = []",
            "strict = true\nstrict = false",
            "caller.git.strict = true\n[caller.git]\namount = 1",
            "\u{feff}strict = true",
            &format!("a{} = 1", ".a".repeat(MOST_DOTS)),
            "# \u{7f}",
            "inputs = [\"service\", \"gpg\"]",
            "inputs = [\"gpg\", \"keyring.pgp\"]",
            "for = [\"@\"]",
            "sets = 1",
            "sets.debian = 1",
            "[sets.debian]",
            "[sets.debian]\nabc = 1",
            &format!("[sets.\"a b\"]\n{FPR} = 1"),
            &format!("[sets.\"\u{212a}eys\"]\n{FPR} = 1"),
            &format!("[sets]\n{FPR} = 1"),
        ] {
            assert!(Config::parse(text).is_err(), "{text}");
        }
        assert!(Config::parse("").unwrap().roots.is_empty());
    }

    #[test]
    fn others_may_not_have_written_it() {
        use std::os::unix::fs::PermissionsExt;
        let folder = std::env::temp_dir().join(format!("tukyamid-config-{}", std::process::id()));
        fs::create_dir(&folder).unwrap();
        let path = folder.join("config.toml");
        let set = |path: &Path, mode: u32| fs::set_permissions(path, fs::Permissions::from_mode(mode)).unwrap();
        set(&folder, 0o755);
        assert!(Config::of_file(&path).unwrap().is_none());
        fs::write(&path, "strict = true").unwrap();
        set(&path, 0o644);
        assert!(Config::of_file(&path).unwrap().unwrap().policy_for(&[]).is_strict);
        for (of_file, of_folder) in [(0o664, 0o755), (0o646, 0o755), (0o644, 0o775), (0o644, 0o777)] {
            set(&path, of_file);
            set(&folder, of_folder);
            assert!(Config::of_file(&path).is_err(), "{of_file:o} {of_folder:o}");
        }
        set(&path, 0o644);
        set(&folder, 0o755);
        fs::write(&path, vec![b'#'; LONGEST as usize + 1]).unwrap();
        assert!(Config::of_file(&path).is_err());
        fs::write(&path, b"# \xff").unwrap();
        assert!(Config::of_file(&path).is_err());
        fs::remove_file(&path).unwrap();
        fs::create_dir(&path).unwrap();
        assert!(Config::of_file(&path).is_err());
        fs::remove_dir_all(&folder).unwrap();
    }
}
