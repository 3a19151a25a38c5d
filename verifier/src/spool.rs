//! Inputs that are read more than once.

use std::fs::{self, File, OpenOptions};
use std::io::{self, Read, Seek};
use std::os::unix::fs::OpenOptionsExt;
use std::path::Path;

use crate::input;
use crate::opening::{self, Source};

/// A file at its beginning. Standard input and whatever else can't be read twice is copied into a file without a name.
pub fn open(path: &Path) -> io::Result<File> {
    if input::is_standard_input(path) {
        return copy(&mut io::stdin().lock());
    }
    of_source(opening::open(path)?)
}

/// The same of what is open.
pub fn of_source(mut source: Source) -> io::Result<File> {
    if source.is_whole()? { Ok(source.into_file()) } else { copy(&mut source) }
}

fn copy(from: &mut dyn Read) -> io::Result<File> {
    let mut file = unnamed()?;
    io::copy(from, &mut file)?;
    file.rewind()?;
    Ok(file)
}

/// A new file that only this process sees: it has no name. If the file system can't make such a file, its name is gone
/// at once, and nobody else may open it before.
pub fn unnamed() -> io::Result<File> {
    let mut options = OpenOptions::new();
    options.read(true).write(true).mode(0o600).custom_flags(libc::O_TMPFILE);
    options.open(std::env::temp_dir()).or_else(|_| named())
}

fn named() -> io::Result<File> {
    let mut number = 0;
    loop {
        let path = std::env::temp_dir().join(format!("wot-verdicts-{}-{number}", std::process::id()));
        match OpenOptions::new().read(true).write(true).create_new(true).mode(0o600).open(&path) {
            Ok(file) => return fs::remove_file(&path).map(|()| file),
            Err(error) if error.kind() == io::ErrorKind::AlreadyExists && number < 1000 => number += 1,
            Err(error) => return Err(error),
        }
    }
}
