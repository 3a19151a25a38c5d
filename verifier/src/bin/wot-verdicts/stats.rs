//! What was done, in numbers.

use std::fmt;
use std::ops::AddAssign;
use std::time::Instant;

/// What became of signatures, and the processor time that verifying them took.
#[derive(Clone, Copy, Debug, Default)]
pub struct Counts {
    pub good: u64,
    pub bad: u64,
    /// The issuer isn't there.
    pub absent: u64,
    /// The library can't check them.
    pub unsupported: u64,
    /// There was no time left to verify them.
    pub late: u64,
    /// No verdict is asked for.
    pub other: u64,
    pub verifying_seconds: f64,
}

impl AddAssign for Counts {
    fn add_assign(&mut self, more: Counts) {
        self.good += more.good;
        self.bad += more.bad;
        self.absent += more.absent;
        self.unsupported += more.unsupported;
        self.late += more.late;
        self.other += more.other;
        self.verifying_seconds += more.verifying_seconds;
    }
}

/// The statistics of a whole run.
pub struct Stats {
    pub certificates: usize,
    pub counts: Counts,
    pub script_octets: u64,
    pub begun: Instant,
}

impl fmt::Display for Stats {
    fn fmt(&self, f: &mut fmt::Formatter<'_>) -> fmt::Result {
        let counts = &self.counts;
        let processor = clock_seconds(libc::CLOCK_PROCESS_CPUTIME_ID);
        writeln!(f, "certificates {}", self.certificates)?;
        writeln!(f, "signatures-good {}", counts.good)?;
        writeln!(f, "signatures-bad {}", counts.bad)?;
        writeln!(f, "signatures-issuer-absent {}", counts.absent)?;
        writeln!(f, "signatures-unsupported {}", counts.unsupported)?;
        writeln!(f, "signatures-late {}", counts.late)?;
        writeln!(f, "signatures-not-judged {}", counts.other)?;
        writeln!(f, "script-octets {}", self.script_octets)?;
        writeln!(f, "seconds {:.3}", self.begun.elapsed().as_secs_f64())?;
        writeln!(f, "processor-seconds {processor:.3}")?;
        writeln!(f, "processor-seconds-verifying {:.3}", counts.verifying_seconds)?;
        writeln!(f, "peak-kilobytes {}", peak_kilobytes())
    }
}

/// The processor time of this thread.
pub fn thread_seconds() -> f64 {
    clock_seconds(libc::CLOCK_THREAD_CPUTIME_ID)
}

fn clock_seconds(clock: libc::clockid_t) -> f64 {
    let mut time = libc::timespec { tv_sec: 0, tv_nsec: 0 };
    // SAFETY: the call writes to a timespec of this frame.
    unsafe { libc::clock_gettime(clock, &mut time) };
    time.tv_sec as f64 + time.tv_nsec as f64 * 1e-9
}

fn peak_kilobytes() -> i64 {
    // SAFETY: a rusage of zeros is one, and the call writes to that of this frame.
    unsafe {
        let mut usage: libc::rusage = std::mem::zeroed();
        libc::getrusage(libc::RUSAGE_SELF, &mut usage);
        usage.ru_maxrss
    }
}
