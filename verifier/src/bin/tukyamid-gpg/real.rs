//! The real gpg, gpgv and gpgconf, which do all that isn't done here.

use std::env;
use std::ffi::OsString;
use std::fs;
use std::io;
use std::os::unix::fs::{MetadataExt, PermissionsExt};
use std::os::unix::process::CommandExt;
use std::path::{Path, PathBuf};
use std::process::Command;

use crate::names::Program;

/// Folders that are looked into after those of PATH.
const FOLDERS: &[&str] = &["/usr/bin", "/bin", "/usr/local/bin"];
/// Holds the number of the process that started a real program. So one that is in fact this program notices.
const STARTED_BY: &str = "TUKYAMID_GPG_STARTED_BY";

/// The real program: the first on PATH that isn't this one.
pub fn find(program: Program) -> io::Result<PathBuf> {
    if is_started_by_itself() {
        return Err(io::Error::new(io::ErrorKind::NotFound, "the program that is found as the real gpg is this one"));
    }
    let own = fs::metadata("/proc/self/exe").map(|found| (found.dev(), found.ino())).ok();
    let path = env::var_os("PATH").unwrap_or_default();
    let folders: Vec<PathBuf> = env::split_paths(&path).chain(FOLDERS.iter().map(PathBuf::from)).collect();
    for name in program.real_names() {
        let found = folders.iter().map(|folder| folder.join(name)).find(|path| is_other_program(path, own));
        if let Some(path) = found {
            return Ok(path);
        }
    }
    let name = program.real_names()[0];
    Err(io::Error::new(io::ErrorKind::NotFound, format!("the real {name} isn't installed")))
}

fn is_other_program(path: &Path, own: Option<(u64, u64)>) -> bool {
    match fs::metadata(path) {
        Ok(found) => {
            found.is_file() && found.permissions().mode() & 0o111 != 0 && Some((found.dev(), found.ino())) != own
        }
        Err(_) => false,
    }
}

fn is_started_by_itself() -> bool {
    let by: Option<u32> = env::var(STARTED_BY).ok().and_then(|number| number.parse().ok());
    by == Some(std::process::id()) || by == Some(std::os::unix::process::parent_id())
}

/// A command of the real program with these words.
pub fn command(program: Program, words: &[OsString]) -> io::Result<Command> {
    let mut command = Command::new(find(program)?);
    command.args(words).env(STARTED_BY, std::process::id().to_string());
    Ok(command)
}

/// Becomes the real program. Returns only if that can't be done.
pub fn become_real(program: Program, words: &[OsString]) -> io::Error {
    match command(program, words) {
        Ok(mut command) => command.arg0(program.real_names()[0]).exec(),
        Err(error) => error,
    }
}
