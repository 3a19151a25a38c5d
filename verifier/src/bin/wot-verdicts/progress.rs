//! A progress bar on standard error, if that is a terminal.

use std::time::{Duration, Instant};

const WIDTH: u64 = 40;
const PAUSE: Duration = Duration::from_millis(100);

pub struct Progress {
    total: u64,
    done: u64,
    shown: Option<Instant>,
    is_terminal: bool,
}

impl Progress {
    pub fn new(total: u64) -> Progress {
        // SAFETY: the call reads no memory of ours.
        let is_terminal = unsafe { libc::isatty(libc::STDERR_FILENO) } == 1;
        Progress { total, done: 0, shown: None, is_terminal }
    }

    pub fn add(&mut self, more: u64) {
        self.done += more;
        let is_due = self.shown.map_or(true, |shown| shown.elapsed() >= PAUSE);
        if self.is_terminal && is_due {
            eprint!("\r{}", bar(self.done, self.total));
            self.shown = Some(Instant::now());
        }
    }

    /// Takes the bar away.
    pub fn end(&self) {
        if self.is_terminal {
            eprint!("\r\x1b[K");
        }
    }
}

fn bar(done: u64, total: u64) -> String {
    let full = (done * WIDTH).checked_div(total).unwrap_or(WIDTH) as usize;
    format!("[{}{}] {done}/{total} signatures", "#".repeat(full), " ".repeat(WIDTH as usize - full))
}

#[cfg(test)]
mod tests {
    use super::*;

    #[test]
    fn a_bar_is_as_full_as_the_work_is_done() {
        assert_eq!(bar(1, 4), format!("[{}{}] 1/4 signatures", "#".repeat(10), " ".repeat(30)));
        assert_eq!(bar(0, 0), format!("[{}] 0/0 signatures", "#".repeat(40)));
    }
}
