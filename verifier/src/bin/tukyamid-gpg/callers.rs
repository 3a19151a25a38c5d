//! Which program asks: by a variable, by the processes that started this one, or by who reads its answer.

use std::env;
use std::fs;
use std::os::unix::ffi::OsStrExt;
use std::path::Path;

use crate::config::is_caller;
use crate::words::Place;

const VARIABLE: &str = "TUKYAMID_CALLER";
/// A program asks through a shell or two, seldom through more.
const MOST_STEPS: usize = 8;

/// The names of the programs that may be asking, the nearest first; an Err if the variable holds no such name. Who
/// reads the status lines is looked for if none of those that started this program is one that `is_known`.
pub fn names(is_known: impl Fn(&str) -> bool, status: Option<&Place>) -> Result<Vec<String>, String> {
    if let Some(name) = env::var_os(VARIABLE) {
        return match name.to_str().filter(|name| is_caller(name)) {
            Some(name) => Ok(vec![name.to_owned()]),
            None => Err(format!("{VARIABLE} holds {name:?}, which isn't the name of a program")),
        };
    }
    let mut names = started_by();
    if !names.iter().any(|name| is_known(name)) {
        names.extend(readers_of(status));
        // A library may ask from a process that has ended by now, without a pipe.
        let leader = unsafe { libc::getpgrp() };
        names.extend(Process::read(leader as u32).map(|found| found.name));
    }
    Ok(names)
}

fn started_by() -> Vec<String> {
    let mut names = Vec::new();
    let mut process = std::os::unix::process::parent_id();
    for _ in 0..MOST_STEPS {
        match Process::read(process) {
            Some(found) => {
                names.push(found.name);
                process = found.parent;
            }
            None => break,
        }
    }
    names
}

/// The programs that read the status lines, if these go into a pipe. GPGME starts gpg from a process that ends at once,
/// so that GPGME's caller isn't among those that started gpg.
fn readers_of(status: Option<&Place>) -> Vec<String> {
    let number = match status {
        Some(Place::Descriptor(number)) => *number,
        _ => return Vec::new(),
    };
    let pipe = match fs::read_link(format!("/proc/self/fd/{number}")) {
        Ok(link) if link.as_os_str().as_bytes().starts_with(b"pipe:") => link,
        _ => return Vec::new(),
    };
    let processes = fs::read_dir("/proc").into_iter().flatten().flatten();
    let numbers = processes.filter_map(|entry| entry.file_name().to_str()?.parse().ok());
    let others = numbers.filter(|number: &u32| *number != std::process::id());
    others.filter(|number| reads(*number, &pipe)).filter_map(Process::read).map(|found| found.name).collect()
}

/// Whether a process has the reading end of a pipe.
fn reads(process: u32, pipe: &Path) -> bool {
    let descriptors = fs::read_dir(format!("/proc/{process}/fd")).into_iter().flatten().flatten();
    let ends = descriptors.filter(|entry| fs::read_link(entry.path()).map_or(false, |link| link == pipe));
    let mut names = ends.map(|entry| entry.file_name());
    names.any(|name| is_reading(process, &name.to_string_lossy()))
}

fn is_reading(process: u32, descriptor: &str) -> bool {
    let facts = fs::read_to_string(format!("/proc/{process}/fdinfo/{descriptor}")).unwrap_or_default();
    let flags = facts.lines().find_map(|line| line.strip_prefix("flags:"));
    let flags = flags.and_then(|digits| i32::from_str_radix(digits.trim(), 8).ok());
    flags.map_or(false, |flags| flags & libc::O_ACCMODE == libc::O_RDONLY)
}

struct Process {
    name: String,
    parent: u32,
}

impl Process {
    /// None if there is no such process, or if it is the first of all.
    fn read(number: u32) -> Option<Process> {
        if number <= 1 || number == std::process::id() {
            return None;
        }
        Process::parse(&String::from_utf8_lossy(&fs::read(format!("/proc/{number}/stat")).ok()?))
    }

    /// `NUMBER (NAME) STATE PARENT ..`, where NAME may hold anything.
    fn parse(stat: &str) -> Option<Process> {
        let (front, rest) = stat.rsplit_once(") ")?;
        let (_, name) = front.split_once(" (")?;
        let parent = rest.split(' ').nth(1)?.parse().ok()?;
        Some(Process { name: name.to_owned(), parent })
    }
}

#[cfg(test)]
mod tests {
    use super::*;

    #[test]
    fn who_reads_a_pipe_is_found() {
        let mut child = std::process::Command::new("cat").stdin(std::process::Stdio::piped()).spawn().unwrap();
        let end = std::os::unix::io::AsRawFd::as_raw_fd(child.stdin.as_ref().unwrap());
        assert_eq!(readers_of(Some(&Place::Descriptor(end))), ["cat"]);
        assert!(readers_of(Some(&Place::File("/x".into()))).is_empty() && readers_of(None).is_empty());
        drop(child.stdin.take());
        child.wait().unwrap();
    }

    #[test]
    fn a_name_may_hold_anything() {
        let found = Process::parse("12 (a) S 1 (b) R 77 12 12 0").unwrap();
        assert_eq!((found.name.as_str(), found.parent), ("a) S 1 (b", 77));
        assert!(Process::parse("12 a R 77").is_none());
        assert!(Process::read(1).is_none());
    }
}
