//! The streams that the caller names: status lines, text for people, content. A descriptor is looked at before anything
//! else is opened, so that none of ours is taken for it.

use std::fs::{File, OpenOptions};
use std::io::{self, Write};
use std::os::unix::fs::OpenOptionsExt;
use std::os::unix::io::{AsRawFd, FromRawFd, RawFd};
use std::time::{Duration, Instant};

use crate::words::Place;

/// How long a stream may take nothing.
const PATIENCE: Duration = Duration::from_secs(60);

/// A copy of a descriptor that the caller has opened.
pub fn descriptor(number: RawFd) -> io::Result<File> {
    let copy = unsafe { libc::fcntl(number, libc::F_DUPFD_CLOEXEC, 3) };
    if copy < 0 {
        return Err(io::Error::last_os_error());
    }
    Ok(unsafe { File::from_raw_fd(copy) })
}

/// Whether a descriptor is open. It has to be asked before anything is opened here.
pub fn check(number: RawFd) -> io::Result<()> {
    if unsafe { libc::fcntl(number, libc::F_GETFD) } < 0 {
        Err(io::Error::last_os_error())
    } else {
        Ok(())
    }
}

/// Opens a place for writing.
pub fn open(place: &Place) -> io::Result<File> {
    match place {
        Place::Descriptor(number) => descriptor(*number),
        Place::File(path) => {
            OpenOptions::new().write(true).create(true).truncate(true).custom_flags(libc::O_NOCTTY).open(path)
        }
    }
}

/// A stream that may be absent, and that remembers whether anything was lost.
pub struct Stream {
    file: Option<File>,
    is_broken: bool,
}

impl Stream {
    pub fn to(file: File) -> Stream {
        Stream { file: Some(file), is_broken: false }
    }

    pub fn none() -> Stream {
        Stream { file: None, is_broken: false }
    }

    pub fn write(&mut self, octets: &[u8]) {
        if let (Some(file), false) = (&mut self.file, self.is_broken) {
            self.is_broken = write_all(file, octets).is_err();
        }
    }

    /// Whether anything that was written didn't arrive.
    pub fn is_broken(&self) -> bool {
        self.is_broken
    }
}

/// Writes everything, even if the descriptor doesn't block, unless nobody takes anything for a long time.
pub fn write_all(file: &mut File, mut octets: &[u8]) -> io::Result<()> {
    let mut end = Instant::now() + PATIENCE;
    while !octets.is_empty() {
        match file.write(octets) {
            Ok(0) => return Err(io::ErrorKind::WriteZero.into()),
            Ok(length) => {
                octets = &octets[length..];
                end = Instant::now() + PATIENCE;
            }
            Err(error) if error.kind() == io::ErrorKind::Interrupted => {}
            Err(error) if error.kind() == io::ErrorKind::WouldBlock && Instant::now() < end => {
                let mut waiting = libc::pollfd { fd: file.as_raw_fd(), events: libc::POLLOUT, revents: 0 };
                unsafe { libc::poll(&mut waiting, 1, 1000) };
            }
            Err(error) => return Err(error),
        }
    }
    Ok(())
}

#[cfg(test)]
mod tests {
    use super::*;
    use std::io::Read;

    #[test]
    fn a_descriptor_has_to_be_open() {
        assert!(descriptor(999).is_err());
        assert!(descriptor(-1).is_err());
        assert!(descriptor(2).is_ok());
        assert!((check(2).is_ok(), check(999).is_err()) == (true, true));
    }

    #[test]
    fn what_doesnt_arrive_is_noticed() {
        let mut ends = [0; 2];
        assert_eq!(unsafe { libc::pipe2(ends.as_mut_ptr(), libc::O_NONBLOCK | libc::O_CLOEXEC) }, 0);
        let (mut read, write) = unsafe { (File::from_raw_fd(ends[0]), File::from_raw_fd(ends[1])) };
        let mut stream = Stream::to(write);
        stream.write(b"a");
        let mut octet = [0];
        read.read_exact(&mut octet).unwrap();
        assert!(!stream.is_broken());
        drop(read);
        stream.write(b"b");
        assert!(stream.is_broken());
    }
}
