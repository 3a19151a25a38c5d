//! What a signed message holds: kept aside until its signatures are verified, and then written where it is wanted.

use std::ffi::{CString, OsStr, OsString};
use std::fs::{File, OpenOptions};
use std::io::{self, Read, Seek, SeekFrom, Write};
use std::os::unix::fs::OpenOptionsExt;
use std::os::unix::io::FromRawFd;

use crate::inputs::Names;
use crate::streams::{descriptor, write_all};

/// A file that has no name and no place on a disk.
pub fn aside() -> io::Result<File> {
    let name = CString::new("tukyamid-gpg").expect("a name without zero");
    let number = unsafe { libc::memfd_create(name.as_ptr(), libc::MFD_CLOEXEC) };
    if number < 0 {
        Err(io::Error::last_os_error())
    } else {
        Ok(unsafe { File::from_raw_fd(number) })
    }
}

/// Where the content goes.
pub struct Target<'n> {
    pub names: &'n Names,
    /// Standard output if none is named.
    pub output: Option<&'n OsString>,
    /// Whether a file that is there may be replaced.
    pub may_replace: bool,
}

impl Target<'_> {
    /// Writes all of a file, from its beginning.
    pub fn write(&self, content: &mut File) -> io::Result<()> {
        content.seek(SeekFrom::Start(0))?;
        let mut to = self.open()?;
        let mut piece = vec![0; 1 << 16];
        loop {
            match content.read(&mut piece)? {
                0 => return to.flush(),
                length => write_all(&mut to, &piece[..length])?,
            }
        }
    }

    fn open(&self) -> io::Result<File> {
        let name = self.output.map_or_else(|| OsStr::new("-"), |name| name.as_os_str());
        match self.names.descriptor_of(name) {
            Some(0) => descriptor(1),
            Some(number) => descriptor(number),
            None if self.may_replace => {
                OpenOptions::new().write(true).create(true).truncate(true).custom_flags(libc::O_NOCTTY).open(name)
            }
            None => OpenOptions::new().write(true).create_new(true).open(name),
        }
    }
}
