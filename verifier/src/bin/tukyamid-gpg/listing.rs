//! gpg's listings of keys, with the validity of keys and user IDs by the engine: so whoever lists a key sees what is
//! answered about its signatures.

use std::collections::BTreeMap;
use std::ffi::OsString;
use std::io::{self, BufRead, BufReader, Read, Write};
use std::process::{Child, Stdio};

use crate::colons::Key;
use crate::config::{Config, Policy};
use crate::listed::Listed;
use crate::human::on_one_line;
use crate::names::Program;
use crate::real;
use crate::relay::fingerprint;
use crate::service::{Service, Times};
use crate::socket::Away;
use crate::trust::{level, Level};

const LONGEST_LINE: u64 = 1 << 20;

pub struct Listing<'c> {
    pub config: &'c Config,
    pub policy: &'c Policy,
    pub now: u32,
    service: Option<Service>,
    /// Why the engine couldn't be asked, if so. Then no key is valid.
    away: Option<Away>,
}

impl<'c> Listing<'c> {
    pub fn new(config: &'c Config, policy: &'c Policy, now: u32) -> Listing<'c> {
        Listing { config, policy, now, service: None, away: None }
    }

    /// Lists, and returns the exit status. Without the service no key is valid, and the status isn't that of success.
    pub fn run(mut self, words: &[OsString], has_colons: bool) -> u8 {
        let listed = if has_colons { self.for_programs(words) } else { self.for_people(words) };
        match (listed, self.away) {
            (Ok(exit), None) => exit,
            (Ok(_), Some(away)) => failed(&away.to_string()),
            (Err(error), _) => failed(&error.to_string()),
        }
    }

    fn for_programs(&mut self, words: &[OsString]) -> io::Result<u8> {
        let mut child = real::command(Program::Gpg, words)?.stdout(Stdio::piped()).spawn()?;
        let mut output = io::stdout().lock();
        each_key(&mut child, &mut |lines| {
            let mut key = Key::of(&lines);
            let levels = self.levels(&key);
            key.set_levels(&levels);
            key.into_lines().try_for_each(|line| output.write_all(&line))
        })?;
        output.flush()?;
        exit_of(child)
    }

    /// gpg is asked twice: the listing for programs says which user IDs the one for people shows.
    fn for_people(&mut self, words: &[OsString]) -> io::Result<u8> {
        let with_colons: Vec<OsString> = [OsString::from("--with-colons")].iter().chain(words).cloned().collect();
        let mut command = real::command(Program::Gpg, &with_colons)?;
        let mut child = command.stdin(Stdio::null()).stdout(Stdio::piped()).stderr(Stdio::null()).spawn()?;
        let mut found = Vec::new();
        each_key(&mut child, &mut |lines| {
            let key = Key::of(&lines);
            if let Some(fingerprint) = key.fingerprint() {
                found.push(Listed { fingerprint, levels: self.levels(&key), named: key.named() });
            }
            Ok(())
        })?;
        child.wait()?;
        let mut child = real::command(Program::Gpg, words)?.stdout(Stdio::piped()).spawn()?;
        let mut output = io::stdout().lock();
        let mut found = found.into_iter();
        each_key(&mut child, &mut |mut lines| {
            if lines.first().map_or(false, |line| begins_key(line)) {
                found.next().unwrap_or_else(Listed::unknown).show_in(&mut lines);
            }
            lines.iter().try_for_each(|line| output.write_all(line))
        })?;
        output.flush()?;
        exit_of(child)
    }

    /// The level of each user ID and attribute, in the order of their lines.
    fn levels(&mut self, key: &Key) -> Vec<Level> {
        self.try_levels(key).unwrap_or_else(|away| {
            self.away = Some(away);
            vec![Level::Undefined; key.named().len()]
        })
    }

    fn try_levels(&mut self, key: &Key) -> Result<Vec<Level>, Away> {
        let named = key.named();
        let user_ids: Vec<&[u8]> = named.iter().filter_map(|one| one.user_id.as_deref()).collect();
        let digits = key.fingerprint();
        let (digits, certificate) = match digits.and_then(|digits| Some((digits.clone(), fingerprint(&digits)?))) {
            Some(found) if !self.config.roots.is_empty() && !user_ids.is_empty() => found,
            _ => return Ok(vec![Level::Undefined; named.len()]),
        };
        let service = match &mut self.service {
            Some(service) => service,
            None => self.service.insert(Service::open(self.config.socket.as_deref())?),
        };
        let roots: &BTreeMap<String, u32> = &self.config.roots;
        let times = Times { signing: self.now, now: self.now };
        let mut found = service.reach(roots, times, certificate, self.policy.amount, &user_ids)?.into_iter();
        let root = roots.get(&digits).copied().unwrap_or(0);
        let mut level_of = |user_id: &[u8]| {
            let amount = found.next().map_or(0, |reach| reach.amount());
            match self.policy.names(user_id) {
                true => level(amount, root, self.policy.amount),
                false => Level::Undefined,
            }
        };
        Ok(named.iter().map(|one| one.user_id.as_deref().map_or(Level::Undefined, &mut level_of)).collect())
    }
}

fn failed(why: &str) -> u8 {
    let _ = writeln!(io::stderr(), "tukyamid-gpg: {}", on_one_line(why));
    2
}

/// Hands over the lines that gpg writes, with their ends: those before the first key, and then those of each key.
fn each_key(child: &mut Child, take: &mut dyn FnMut(Vec<Vec<u8>>) -> io::Result<()>) -> io::Result<()> {
    let mut reader = BufReader::new(child.stdout.take().ok_or(io::ErrorKind::BrokenPipe)?);
    let mut key: Vec<Vec<u8>> = Vec::new();
    loop {
        let mut line = Vec::new();
        let length = Read::by_ref(&mut reader).take(LONGEST_LINE).read_until(b'\n', &mut line)?;
        if length == 0 || begins_key(&line) {
            take(std::mem::take(&mut key))?;
        }
        if length == 0 {
            return Ok(());
        }
        key.push(line);
    }
}

fn begins_key(line: &[u8]) -> bool {
    matches!(line, [b'p', b'u', b'b', b':' | b' ', ..] | [b's', b'e', b'c', b':' | b' ', ..])
}

fn exit_of(mut child: Child) -> io::Result<u8> {
    Ok(child.wait()?.code().and_then(|code| u8::try_from(code).ok()).unwrap_or(2))
}

#[cfg(test)]
mod tests {
    use super::*;

    #[test]
    fn without_the_engine_no_key_is_valid() {
        let text = format!("socket = \"/nonexistent\"\n[roots]\n{} = 120", "a".repeat(40));
        let config = Config::parse(&text).unwrap();
        let policy = Policy::default();
        let mut listing = Listing::new(&config, &policy, 0);
        let fpr = format!("fpr:::::::::{}:", "b".repeat(40));
        let lines = ["pub:u:2048", &fpr, "uid:f::::::::Bob:", "uat:f::::::::1 9:"];
        let key = Key::of(&lines.map(|line| line.as_bytes().to_vec()));
        assert_eq!(listing.levels(&key), [Level::Undefined; 2]);
        assert!(listing.away.is_some());
    }

    #[test]
    fn where_a_key_begins() {
        for (line, expected) in [("pub:u", true), ("pub   rsa", true), ("sec  x", true), ("public", false), ("", false)]
        {
            assert_eq!(begins_key(line.as_bytes()), expected, "{line}");
        }
    }
}
