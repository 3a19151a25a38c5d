//! What a process that reads what strangers wrote may use, whatever they wrote: bounded memory, time and files, and
//! once its files are open none of the system's calls but those for memory, threads, and reading and writing these.

use std::io;

use crate::certificate::Certificate;
use crate::curves;
use crate::filter::{Filter, Only};

/// Open files at a time: those of a directory are read one after the other.
const FILES: u64 = 64;

/// Calls that may be made with any arguments. None of them names a file, a process or an address.
const ALLOWED: &str = "read readv pread64 write writev lseek close poll ppoll \
    brk munmap mremap madvise \
    futex set_robust_list rseq sched_yield sched_getaffinity membarrier gettid getpid \
    sigaltstack rt_sigaction rt_sigprocmask rt_sigreturn restart_syscall \
    clock_gettime clock_nanosleep gettimeofday nanosleep getrandom sysinfo \
    exit exit_group";

/// Bounds the files that this process has open at a time, has it gain no rights by whatever it starts, and leaves no
/// image of its memory behind.
pub fn enter() -> io::Result<()> {
    enter_with_open_files()?;
    limit(libc::RLIMIT_NOFILE, FILES)
}

/// The same for a process whose caller may have left any number of files open.
pub fn enter_with_open_files() -> io::Result<()> {
    // SAFETY: the call reads no memory of ours.
    if unsafe { libc::prctl(libc::PR_SET_NO_NEW_PRIVS, 1, 0, 0, 0) } != 0 {
        return Err(io::Error::last_os_error());
    }
    limit(libc::RLIMIT_CORE, 0)
}

/// From now on this thread, and each that it starts, opens no file, has no network, starts no program or process,
/// sends no signal to others, and makes no memory executable. It keeps the files that are open. Whatever else it tries
/// fails with EPERM.
pub fn close() -> io::Result<()> {
    curves::load();
    calls()?.load()
}

/// The same for a process that also goes on to ask over a socket that is open, and has no other keys than those of
/// these certificates.
pub fn close_asking(certificates: &[Certificate]) -> io::Result<()> {
    if certificates.iter().any(|certificate| curves::is_named_in(&certificate.octets())) {
        curves::load();
    }
    let mut filter = calls()?;
    filter.allow("recvfrom", &[])?;
    filter.allow("sendto", &[Only::Equal { argument: 4, value: 0 }])?;
    for patience in [libc::SO_RCVTIMEO, libc::SO_SNDTIMEO] {
        let level = Only::Equal { argument: 1, value: libc::SOL_SOCKET as u64 };
        filter.allow("setsockopt", &[level, Only::Equal { argument: 2, value: patience as u64 }])?;
    }
    // Another number for what is open.
    filter.allow("fcntl", &[Only::Equal { argument: 1, value: libc::F_DUPFD_CLOEXEC as u64 }])?;
    filter.load()
}

/// The calls that are left in any case.
fn calls() -> io::Result<Filter> {
    let mut filter = Filter::refusing(libc::EPERM)?;
    ALLOWED.split_whitespace().try_for_each(|call| filter.allow(call, &[]))?;
    let never_run = Only::Bits { argument: 2, mask: libc::PROT_EXEC as u64, bits: 0 };
    filter.allow("mmap", &[never_run])?;
    filter.allow("mprotect", &[never_run])?;
    // Threads alone. The flags of clone3 can't be seen, and without it the C library uses clone.
    let thread = (libc::CLONE_THREAD | libc::CLONE_VM) as u64;
    filter.allow("clone", &[Only::Bits { argument: 0, mask: thread, bits: thread }])?;
    filter.fail("clone3", libc::ENOSYS)?;
    // To end by a signal of its own.
    filter.allow("tgkill", &[Only::Equal { argument: 0, value: std::process::id().into() }])?;
    // Whether standard error is a terminal.
    filter.allow("ioctl", &[Only::Equal { argument: 1, value: libc::TCGETS as u64 }])?;
    Ok(filter)
}

/// Bounds the memory that this process may use in all: octets.
pub fn limit_memory(octets: u64) -> io::Result<()> {
    limit(libc::RLIMIT_DATA, octets)
}

/// Bounds the processor time of this process in all. It is ended when that is up.
pub fn limit_seconds(seconds: u64) -> io::Result<()> {
    limit(libc::RLIMIT_CPU, seconds)
}

/// Bounds of memory and processor time for as long as this exists. Programs that are started later don't have them.
pub struct Bounds(Vec<(libc::__rlimit_resource_t, libc::rlimit)>);

impl Bounds {
    pub fn begin(octets: u64, seconds: u64) -> io::Result<Bounds> {
        let mut bounds = Bounds(Vec::new());
        for (resource, most) in [(libc::RLIMIT_DATA, octets), (libc::RLIMIT_CPU, seconds)] {
            let before = current(resource)?;
            set(resource, libc::rlimit { rlim_cur: before.rlim_cur.min(most), ..before })?;
            bounds.0.push((resource, before));
        }
        Ok(bounds)
    }
}

impl Drop for Bounds {
    fn drop(&mut self) {
        for (resource, before) in &self.0 {
            // Raising a limit up to its maximum is always allowed; otherwise the lower one stays.
            let _ = set(*resource, *before);
        }
    }
}

fn current(resource: libc::__rlimit_resource_t) -> io::Result<libc::rlimit> {
    let mut current = libc::rlimit { rlim_cur: 0, rlim_max: 0 };
    // SAFETY: the call writes this frame's rlimit alone.
    let status = unsafe { libc::getrlimit(resource, &mut current) };
    if status == 0 { Ok(current) } else { Err(io::Error::last_os_error()) }
}

fn set(resource: libc::__rlimit_resource_t, wanted: libc::rlimit) -> io::Result<()> {
    // SAFETY: the call reads this frame's rlimit alone.
    let status = unsafe { libc::setrlimit(resource, &wanted) };
    if status == 0 { Ok(()) } else { Err(io::Error::last_os_error()) }
}

/// Lowers a limit; one that is lower already stays.
fn limit(resource: libc::__rlimit_resource_t, most: u64) -> io::Result<()> {
    let before = current(resource)?;
    set(resource, libc::rlimit { rlim_cur: before.rlim_cur.min(most), rlim_max: before.rlim_max.min(most) })
}

#[cfg(test)]
mod tests {
    use std::fs::File;
    use std::io::Write;
    use std::net::TcpStream;
    use std::os::unix::net::UnixStream;
    use std::process::Command;
    use std::thread;

    use super::*;

    fn is_refused<T>(tried: io::Result<T>) -> bool {
        tried.err().and_then(|error| error.raw_os_error()) == Some(libc::EPERM)
    }

    /// The filter holds for one thread and those that it starts, so the other tests go on.
    #[test]
    fn a_closed_thread_uses_what_is_open_and_nothing_else() {
        let folder = std::env::temp_dir().join(format!("wot-closed-{}", std::process::id()));
        std::fs::create_dir(&folder).unwrap();
        let (new, mut open) = (folder.join("new"), File::create(folder.join("open")).unwrap());
        let closed = thread::spawn(move || {
            close().unwrap();
            assert!(is_refused(File::create(&new)));
            assert!(is_refused(File::open("/etc/passwd")));
            assert!(is_refused(TcpStream::connect("127.0.0.1:9")));
            assert!(is_refused(UnixStream::pair()));
            assert!(is_refused(Command::new("/bin/true").spawn()));
            // SAFETY: none of these calls reads memory of ours; 4 KiB that nothing uses would be mapped.
            unsafe {
                assert_eq!((libc::fork(), io::Error::last_os_error().raw_os_error()), (-1, Some(libc::EPERM)));
                assert_eq!(libc::kill(libc::getppid(), 0), -1);
                let (rights, kind) = (libc::PROT_READ | libc::PROT_EXEC, libc::MAP_PRIVATE | libc::MAP_ANONYMOUS);
                assert_eq!(libc::mmap(std::ptr::null_mut(), 4096, rights, kind, -1, 0), libc::MAP_FAILED);
            }
            let other = thread::spawn(|| (vec![1u8; 1 << 20].len(), is_refused(File::open("/etc/passwd"))));
            assert_eq!(other.join().unwrap(), (1 << 20, true));
            open.write_all(b"it goes on").unwrap();
        });
        closed.join().unwrap();
        assert_eq!(std::fs::read(folder.join("open")).unwrap(), b"it goes on");
        assert!(!folder.join("new").exists() && File::open("/etc/passwd").is_ok());
        std::fs::remove_dir_all(folder).unwrap();
    }

    #[test]
    fn bounds_end_with_what_has_them() {
        let before = current(libc::RLIMIT_CPU).unwrap();
        let bounds = Bounds::begin(1 << 40, 1 << 20).unwrap();
        let during = current(libc::RLIMIT_CPU).unwrap();
        assert_eq!((during.rlim_cur, during.rlim_max), (before.rlim_cur.min(1 << 20), before.rlim_max));
        drop(bounds);
        assert_eq!(current(libc::RLIMIT_CPU).unwrap().rlim_cur, before.rlim_cur);
    }
}
