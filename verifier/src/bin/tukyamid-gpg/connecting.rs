//! Connections to sockets of a service: where the user's own is, and how long connecting may take.

use std::env;
use std::fs;
use std::io;
use std::mem;
use std::os::unix::ffi::OsStrExt;
use std::os::unix::fs::MetadataExt;
use std::os::unix::io::{AsRawFd, FromRawFd};
use std::os::unix::net::UnixStream;
use std::path::{Path, PathBuf};
use std::time::Duration;

/// Who listens may take nobody in, and the kernel lets few wait.
const PATIENCE: Duration = Duration::from_secs(10);

/// The socket of the user's own service. Without a directory of the session it is in one below /tmp, which others may
/// have made: an Err.
pub fn own_socket() -> io::Result<PathBuf> {
    let named = env::var_os("XDG_RUNTIME_DIR").filter(|folder| !folder.is_empty()).map(PathBuf::from);
    let folder = match named {
        Some(folder) => folder,
        None => checked(PathBuf::from(format!("/tmp/tukyamid-{}", unsafe { libc::getuid() })))?,
    };
    Ok(folder.join("tukyamid.socket"))
}

/// A directory that is the user's alone, unless there is none.
fn checked(folder: PathBuf) -> io::Result<PathBuf> {
    let own = unsafe { libc::geteuid() };
    match fs::symlink_metadata(&folder) {
        Ok(found) if !found.is_dir() || found.uid() != own || found.mode() & 0o077 != 0 => {
            let why = "has to be a directory that only you can use; set XDG_RUNTIME_DIR";
            Err(io::Error::new(io::ErrorKind::PermissionDenied, format!("{} {why}", folder.display())))
        }
        _ => Ok(folder),
    }
}

/// Connects within `PATIENCE`.
pub fn connect(path: &Path) -> io::Result<UnixStream> {
    let octets = path.as_os_str().as_bytes();
    // SAFETY: all of its fields may be zero.
    let mut address: libc::sockaddr_un = unsafe { mem::zeroed() };
    if octets.is_empty() || octets.len() >= address.sun_path.len() || octets.contains(&0) {
        return Err(io::Error::new(io::ErrorKind::InvalidInput, "it isn't a path of a socket"));
    }
    address.sun_family = libc::AF_UNIX as libc::sa_family_t;
    for (to, from) in address.sun_path.iter_mut().zip(octets) {
        *to = *from as libc::c_char;
    }
    // SAFETY: the descriptor is new, and nobody else's; the address is as long as is said.
    let stream = unsafe {
        let made = libc::socket(libc::AF_UNIX, libc::SOCK_STREAM | libc::SOCK_CLOEXEC, 0);
        if made < 0 {
            return Err(io::Error::last_os_error());
        }
        UnixStream::from_raw_fd(made)
    };
    stream.set_write_timeout(Some(PATIENCE))?; // It bounds connecting, too.
    let length = mem::size_of::<libc::sockaddr_un>() as libc::socklen_t;
    let done = unsafe { libc::connect(stream.as_raw_fd(), (&address as *const libc::sockaddr_un).cast(), length) };
    if done == 0 {
        return Ok(stream);
    }
    let error = io::Error::last_os_error();
    Err(match error.kind() {
        io::ErrorKind::WouldBlock => io::Error::new(io::ErrorKind::TimedOut, "it takes no connection"),
        _ => error,
    })
}

#[cfg(test)]
mod tests {
    use super::*;

    #[test]
    fn what_is_no_path_of_a_socket() {
        for path in ["", "a\0b", &"x".repeat(200)] {
            assert_eq!(connect(Path::new(path)).unwrap_err().kind(), io::ErrorKind::InvalidInput);
        }
        assert_eq!(connect(Path::new("/nowhere/x")).unwrap_err().kind(), io::ErrorKind::NotFound);
    }
}
