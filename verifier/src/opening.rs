//! Opening what a caller names. A pipe with a name (a FIFO) may be anybody's: opening it doesn't wait for somebody who
//! writes, and reading it ends with an error if nothing comes for ten seconds. A pipe without a name is the caller's
//! own, as standard input is, and may be silent as long as it likes.

use std::fs::{File, Metadata, OpenOptions};
use std::io::{self, Read, Seek};
use std::os::unix::fs::{FileTypeExt, MetadataExt, OpenOptionsExt};
use std::os::unix::io::{AsRawFd, FromRawFd, RawFd};
use std::path::Path;
use std::time::{Duration, Instant};

/// How long a FIFO may be silent.
const PATIENCE: Duration = Duration::from_secs(10);

/// What is read.
pub struct Source {
    file: File,
    /// Of a FIFO, whose reads don't block.
    patience: Option<Duration>,
}

/// Opens a path without waiting.
pub fn open(path: &Path) -> io::Result<Source> {
    let file = OpenOptions::new().read(true).custom_flags(libc::O_NONBLOCK | libc::O_NOCTTY).open(path)?;
    if is_named_pipe(&file.metadata()?)? {
        return Ok(Source { file, patience: Some(PATIENCE) });
    }
    block(file.as_raw_fd()).map(|()| Source::of(file))
}

impl Source {
    /// What the caller has opened.
    pub fn of(file: File) -> Source {
        Source { file, patience: None }
    }

    pub fn metadata(&self) -> io::Result<Metadata> {
        self.file.metadata()
    }

    /// Whether it can be read more than once, and is at its beginning.
    pub fn is_whole(&mut self) -> io::Result<bool> {
        Ok(self.metadata()?.is_file() && self.file.stream_position()? == 0)
    }

    /// The file itself, if it is whole.
    pub fn into_file(self) -> File {
        self.file
    }
}

impl Read for Source {
    fn read(&mut self, octets: &mut [u8]) -> io::Result<usize> {
        let patience = match self.patience {
            Some(patience) => patience,
            None => return self.file.read(octets),
        };
        let end = Instant::now() + patience;
        loop {
            wait(self.file.as_raw_fd(), end, patience)?;
            match self.file.read(octets) {
                // Another reader was faster.
                Err(error) if error.kind() == io::ErrorKind::WouldBlock => {}
                read => return read,
            }
        }
    }
}

/// Waits until a FIFO has something, or everybody who wrote to it has closed it.
fn wait(number: RawFd, end: Instant, patience: Duration) -> io::Result<()> {
    loop {
        let left = end.saturating_duration_since(Instant::now());
        let mut waiting = libc::pollfd { fd: number, events: libc::POLLIN, revents: 0 };
        // Rounded up, so that it doesn't wake again and again in the last millisecond.
        let milliseconds = left.as_millis() as libc::c_int + 1;
        // SAFETY: the pointer is to one pollfd of this frame.
        match unsafe { libc::poll(&mut waiting, 1, milliseconds) } {
            0 => return Err(silent(patience)),
            1 => return Ok(()),
            _ => {
                let error = io::Error::last_os_error();
                if error.kind() != io::ErrorKind::Interrupted {
                    return Err(error);
                }
            }
        }
    }
}

fn silent(patience: Duration) -> io::Error {
    io::Error::new(io::ErrorKind::TimedOut, format!("a pipe that was silent for {} seconds", patience.as_secs()))
}

/// Whether this is a pipe with a name: those without one have a file system of their own.
fn is_named_pipe(about: &Metadata) -> io::Result<bool> {
    if !about.file_type().is_fifo() {
        return Ok(false);
    }
    let mut ends = [0; 2];
    // SAFETY: the call writes these two numbers, and each is then owned by one File.
    let (read, _write) = unsafe {
        if libc::pipe2(ends.as_mut_ptr(), libc::O_CLOEXEC) != 0 {
            return Err(io::Error::last_os_error());
        }
        (File::from_raw_fd(ends[0]), File::from_raw_fd(ends[1]))
    };
    Ok(about.dev() != read.metadata()?.dev())
}

/// Has reading wait, as for any file.
fn block(number: RawFd) -> io::Result<()> {
    // SAFETY: neither call reads memory of ours.
    let status = unsafe { libc::fcntl(number, libc::F_SETFL, libc::fcntl(number, libc::F_GETFL) & !libc::O_NONBLOCK) };
    if status < 0 { Err(io::Error::last_os_error()) } else { Ok(()) }
}

#[cfg(test)]
mod tests {
    use std::ffi::CString;
    use std::fs::{self, OpenOptions};
    use std::io::Write;
    use std::os::unix::ffi::OsStrExt;
    use std::path::PathBuf;
    use std::thread;

    use super::*;

    const SHORT: Duration = Duration::from_millis(50);

    struct Fifo(PathBuf);

    impl Fifo {
        fn new(name: &str) -> Fifo {
            let path = std::env::temp_dir().join(format!("wot-fifo-{name}-{}", std::process::id()));
            let text = CString::new(path.as_os_str().as_bytes()).unwrap();
            // SAFETY: the text ends with its NUL.
            assert_eq!(unsafe { libc::mkfifo(text.as_ptr(), 0o600) }, 0);
            Fifo(path)
        }

        fn open(&self, patience: Duration) -> Source {
            let source = open(&self.0).unwrap();
            assert_eq!(source.patience, Some(PATIENCE));
            Source { patience: Some(patience), ..source }
        }
    }

    impl Drop for Fifo {
        fn drop(&mut self) {
            fs::remove_file(&self.0).unwrap();
        }
    }

    fn all_of(mut source: Source) -> io::Result<Vec<u8>> {
        let mut octets = Vec::new();
        source.read_to_end(&mut octets).map(|_| octets)
    }

    #[test]
    fn nobody_writes() {
        let fifo = Fifo::new("nobody");
        assert_eq!(all_of(fifo.open(SHORT)).unwrap_err().kind(), io::ErrorKind::TimedOut);
    }

    #[test]
    fn somebody_is_silent() {
        let fifo = Fifo::new("silent");
        let source = fifo.open(SHORT);
        let mut writer = OpenOptions::new().write(true).open(&fifo.0).unwrap();
        writer.write_all(b"a part").unwrap();
        assert_eq!(all_of(source).unwrap_err().kind(), io::ErrorKind::TimedOut);
    }

    #[test]
    fn somebody_writes_all() {
        let fifo = Fifo::new("all");
        let path = fifo.0.clone();
        let source = fifo.open(Duration::from_secs(60));
        let writing = thread::spawn(move || fs::write(path, vec![7; 200_000]).unwrap());
        assert_eq!(all_of(source).unwrap(), vec![7; 200_000]);
        writing.join().unwrap();
    }

    #[test]
    fn the_callers_own_pipes_are_waited_for() {
        let mut ends = [0; 2];
        // SAFETY: the call writes these two numbers, and each is then owned by one File.
        let (read, mut write) = unsafe {
            assert_eq!(libc::pipe2(ends.as_mut_ptr(), libc::O_CLOEXEC), 0);
            (File::from_raw_fd(ends[0]), File::from_raw_fd(ends[1]))
        };
        let source = open(Path::new(&format!("/dev/fd/{}", read.as_raw_fd()))).unwrap();
        assert_eq!(source.patience, None);
        drop(read);
        let writing = thread::spawn(move || {
            thread::sleep(SHORT);
            write.write_all(b"late").unwrap();
        });
        assert_eq!(all_of(source).unwrap(), b"late");
        writing.join().unwrap();
    }

    #[test]
    fn files_are_whole_and_pipes_are_not() {
        let fifo = Fifo::new("whole");
        assert!(!fifo.open(SHORT).is_whole().unwrap());
        assert!(open(Path::new("/proc/self/exe")).unwrap().is_whole().unwrap());
    }
}
