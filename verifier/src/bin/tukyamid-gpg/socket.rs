//! The connection to the service: lines out, lines in, until a moment at which it is given up.

use std::fmt;
use std::fs;
use std::io::{self, Read, Write};
use std::mem;
use std::os::unix::fs::MetadataExt;
use std::os::unix::io::AsRawFd;
use std::os::unix::net::UnixStream;
use std::path::{Path, PathBuf};
use std::time::{Duration, Instant};

use crate::connecting::{connect, own_socket};
use crate::starting::{has_keyring, start};

/// Where the service of a host listens to those who may only ask.
const HOST_SOCKET: &str = "/run/tukyamid/questions";
/// The user as whom the service of a host runs.
const HOST_USER: &[u8] = b"tukyamid\0";
/// A question has to be answered within this time.
const PATIENCE: Duration = Duration::from_secs(20);
/// And all questions about a file's signatures within this time.
const WHOLE_PATIENCE: Duration = Duration::from_secs(60);
/// More than this is no answer to what is asked here.
const MOST_OCTETS: usize = 1 << 25;

/// Why the service doesn't answer.
#[derive(Debug)]
pub struct Away(pub String);

impl fmt::Display for Away {
    fn fmt(&self, f: &mut fmt::Formatter<'_>) -> fmt::Result {
        f.write_str(&self.0)
    }
}

pub struct Connection {
    stream: UnixStream,
    path: PathBuf,
    end: Instant,
    /// When nothing more is asked; None if there are as many questions as keys that somebody lists.
    last: Option<Instant>,
    /// What has been read and not yet been taken.
    held: Vec<u8>,
    taken: usize,
    read: usize,
}

impl Connection {
    /// To the socket of the configuration. Without one, to the user's own service, which is started if it is needed and
    /// the user has a keyring; or else to that of the host, whatever there is in the place of one's own.
    pub fn open(configured: Option<&Path>) -> Result<Connection, Away> {
        if let Some(path) = configured {
            return Connection::to(path);
        }
        let own = own_socket().map_err(|error| Away(format!("the service isn't running: {error}")));
        let own = own.and_then(|path| match connect(&path) {
            Err(error) if error.kind() != io::ErrorKind::TimedOut && has_keyring() => {
                Connection::over(start(&path).map_err(|error| not_running(&path, error))?, &path)
            }
            Err(error) => Err(not_running(&path, error)),
            Ok(stream) => Connection::over(stream, &path),
        });
        match own {
            Err(away) if !has_keyring() => Connection::to(Path::new(HOST_SOCKET)).map_err(|_| away),
            own => own,
        }
    }

    fn to(path: &Path) -> Result<Connection, Away> {
        Connection::over(connect(path).map_err(|error| not_running(path, error))?, path)
    }

    fn over(stream: UnixStream, path: &Path) -> Result<Connection, Away> {
        let away = |error: io::Error| Away(format!("{}: {error}", path.display()));
        check_peer(&stream).map_err(away)?;
        let end = Instant::now() + PATIENCE;
        Ok(Connection { stream, path: path.to_owned(), end, last: None, held: Vec::new(), taken: 0, read: 0 })
    }

    /// Bounds the time of all questions together.
    pub fn limit(&mut self) {
        self.last = Some(Instant::now() + WHOLE_PATIENCE);
    }

    /// Begins a new question, whose answer has a time of its own.
    pub fn begin(&mut self) {
        let end = Instant::now() + PATIENCE;
        self.end = self.last.map_or(end, |last| end.min(last));
        self.read = 0;
    }

    /// Sends lines, each with its line feed.
    pub fn send(&mut self, lines: &[u8]) -> Result<(), Away> {
        let left = self.left()?;
        self.stream.set_write_timeout(Some(left)).and_then(|()| self.stream.write_all(lines)).map_err(|e| self.away(e))
    }

    /// The next line, without its line feed.
    pub fn line(&mut self) -> Result<&[u8], Away> {
        let mut sought = self.taken;
        loop {
            if let Some(place) = self.held[sought..].iter().position(|octet| *octet == b'\n') {
                let begin = mem::replace(&mut self.taken, sought + place + 1);
                return Ok(&self.held[begin..sought + place]);
            }
            sought = self.held.len() - self.taken;
            self.more()?;
        }
    }

    /// Reads more after what is held.
    fn more(&mut self) -> Result<(), Away> {
        self.held.drain(..self.taken);
        self.taken = 0;
        let mut piece = [0; 1 << 14];
        loop {
            let left = self.left()?;
            let got = self.stream.set_read_timeout(Some(left)).and_then(|()| self.stream.read(&mut piece));
            match got {
                Ok(0) => return Err(Away(format!("{}: the service has ended", self.path.display()))),
                Ok(length) => {
                    self.read += length;
                    if self.read > MOST_OCTETS {
                        return Err(Away(format!("{}: the service answers too much", self.path.display())));
                    }
                    self.held.extend_from_slice(&piece[..length]);
                    return Ok(());
                }
                Err(error) if error.kind() == io::ErrorKind::Interrupted => {}
                Err(error) => return Err(self.away(error)),
            }
        }
    }

    fn left(&self) -> Result<Duration, Away> {
        let left = self.end.saturating_duration_since(Instant::now());
        if left.is_zero() {
            Err(self.away(io::ErrorKind::TimedOut.into()))
        } else {
            Ok(left)
        }
    }

    fn away(&self, error: io::Error) -> Away {
        let why = match error.kind() {
            io::ErrorKind::WouldBlock | io::ErrorKind::TimedOut => {
                let patience = if self.last == Some(self.end) { WHOLE_PATIENCE } else { PATIENCE };
                format!("the service hasn't answered within {} seconds", patience.as_secs())
            }
            _ => error.to_string(),
        };
        Away(format!("{}: {why}", self.path.display()))
    }
}

fn not_running(path: &Path, error: io::Error) -> Away {
    Away(format!("the service isn't running: {}: {error}", path.display()))
}

/// Whoever listens is the user, root, or the host's service: nobody else may answer in its place.
fn check_peer(stream: &UnixStream) -> io::Result<()> {
    let peer = peer_user(stream)?;
    let is_own = peer == unsafe { libc::geteuid() } || peer == 0;
    if is_own || Some(peer) == host_user() {
        return Ok(());
    }
    let why = format!("user {peer} answers there, and not you, root or the service's own user");
    Err(io::Error::new(io::ErrorKind::PermissionDenied, why))
}

fn peer_user(stream: &UnixStream) -> io::Result<u32> {
    let mut peer = libc::ucred { pid: 0, uid: 0, gid: 0 };
    let mut length = mem::size_of::<libc::ucred>() as libc::socklen_t;
    let to = (&mut peer as *mut libc::ucred).cast();
    let done = unsafe { libc::getsockopt(stream.as_raw_fd(), libc::SOL_SOCKET, libc::SO_PEERCRED, to, &mut length) };
    if done == 0 {
        Ok(peer.uid)
    } else {
        Err(io::Error::last_os_error())
    }
}

/// The owner of the folder of the host's socket is root. So a user of this name is the one whom the package made.
fn host_user() -> Option<u32> {
    fs::metadata(Path::new(HOST_SOCKET).parent()?).ok().filter(|folder| folder.uid() == 0)?;
    let found = unsafe { libc::getpwnam(HOST_USER.as_ptr().cast()) };
    if found.is_null() {
        None
    } else {
        Some(unsafe { (*found).pw_uid })
    }
}

#[cfg(test)]
mod tests {
    use super::*;

    fn pair() -> (Connection, UnixStream) {
        let (here, there) = UnixStream::pair().unwrap();
        (Connection::over(here, Path::new("test")).unwrap(), there)
    }

    #[test]
    fn lines_come_however_they_are_cut() {
        let (mut connection, mut there) = pair();
        there.write_all(b"a\n\nlong").unwrap();
        assert_eq!(connection.line().unwrap(), b"a");
        assert_eq!(connection.line().unwrap(), b"");
        there.write_all(b"er\nb\n").unwrap();
        assert_eq!(connection.line().unwrap(), b"longer");
        assert_eq!(connection.line().unwrap(), b"b");
        drop(there);
        assert!(connection.line().is_err());
    }

    #[test]
    fn a_service_that_says_too_much_or_nothing_is_away() {
        let (mut connection, mut there) = pair();
        connection.read = MOST_OCTETS;
        there.write_all(b"a\n").unwrap();
        assert!(connection.line().is_err());
        let (mut connection, _there) = pair();
        connection.end = Instant::now() + Duration::from_millis(50);
        assert!(connection.line().unwrap_err().to_string().contains("hasn't answered"));
        assert!(connection.send(b"x\n").is_err());
    }

    #[test]
    fn all_questions_together_have_a_bound() {
        let (mut connection, _there) = pair();
        connection.begin();
        assert!(connection.end > Instant::now() + PATIENCE / 2);
        connection.limit();
        connection.begin();
        assert!(connection.end <= Instant::now() + PATIENCE);
        connection.last = Some(Instant::now() + Duration::from_millis(50));
        connection.begin();
        assert!(connection.line().unwrap_err().to_string().ends_with("hasn't answered within 60 seconds"));
    }
}
