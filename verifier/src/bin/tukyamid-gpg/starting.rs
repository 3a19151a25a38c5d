//! Starting the user's service when it is needed, as the command `tukyamid` does.

use std::env;
use std::io;
use std::os::unix::net::UnixStream;
use std::os::unix::process::CommandExt;
use std::path::{Path, PathBuf};
use std::process::{Command, Stdio};
use std::thread::sleep;
use std::time::{Duration, Instant};

use crate::connecting::connect;

const SERVER: &str = "tukyamid-server";
/// The service ends after this number of seconds without a client.
const IDLE: &str = "600";
const PATIENCE: Duration = Duration::from_secs(20);
const PAUSE: Duration = Duration::from_millis(20);

/// Whether the user has a keyring of their own, which the service keeps.
pub fn has_keyring() -> bool {
    let named = |name: &str| env::var_os(name).filter(|value| !value.is_empty()).map(PathBuf::from);
    let folder = named("XDG_DATA_HOME").or_else(|| named("HOME").map(|home| home.join(".local/share")));
    folder.map_or(false, |folder| folder.join("tukyamid/keyring.db").exists())
}

/// Starts the service, and connects to it. If several start it at once, one of them serves all.
pub fn start(socket: &Path) -> io::Result<UnixStream> {
    let mut command = Command::new(SERVER);
    command.args(["serve", "--idle", IDLE, "--socket"]).arg(socket).current_dir("/");
    command.stdin(Stdio::null()).stdout(Stdio::null()).stderr(Stdio::null());
    unsafe { command.pre_exec(detach) };
    let mut service = command.spawn()?;
    let end = Instant::now() + PATIENCE;
    let mut is_over = false;
    loop {
        if let Ok(stream) = connect(socket) {
            return Ok(stream);
        }
        // Another one may be starting meanwhile.
        is_over = is_over || service.try_wait()?.is_some();
        let until = if is_over { end - PATIENCE / 2 } else { end };
        if Instant::now() > until {
            return Err(io::Error::new(io::ErrorKind::TimedOut, "the service can't be started: tukyamid status"));
        }
        sleep(PAUSE);
    }
}

/// In the new process: it outlives the caller, and holds nothing of the caller's open, who may wait for its end.
fn detach() -> io::Result<()> {
    unsafe {
        libc::setsid();
        for number in 3..1 << 16 {
            libc::fcntl(number, libc::F_SETFD, libc::FD_CLOEXEC);
        }
    }
    Ok(())
}
