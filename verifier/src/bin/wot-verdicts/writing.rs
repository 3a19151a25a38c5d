//! Verifies on all processors, and writes in order.

use std::collections::BTreeMap;
use std::io::{self, Write};
use std::sync::atomic::{AtomicUsize, Ordering};
use std::sync::mpsc::{self, Receiver, Sender};
use std::thread;

use tukyamid_verify::certificate::Certificate;

use crate::verdict::{CertificateVerdicts, Verifier};
use crate::progress::Progress;
use crate::script::Script;
use crate::stats::Counts;

/// Verifies on this many processors, and writes each certificate's lines in the order of the
/// certificates.
pub fn write<W: Write>(
    certificates: &[Certificate],
    verifier: &Verifier,
    jobs: usize,
    script: &mut Script<W>,
) -> io::Result<Counts> {
    let total = certificates.iter().map(|certificate| certificate.signatures().len() as u64).sum();
    let mut progress = Progress::new(total);
    let mut counts = Counts::default();
    let next = AtomicUsize::new(0);
    let (sender, receiver) = mpsc::channel();
    let written = thread::scope(|scope| {
        for _ in 0..jobs.min(certificates.len()) {
            let sender = sender.clone();
            let next = &next;
            scope.spawn(move || verify_next(certificates, verifier, next, &sender));
        }
        drop(sender);
        in_order(receiver).try_for_each(|(index, found)| {
            counts += found.counts;
            progress.add(certificates[index].signatures().len() as u64);
            write_lines(&certificates[index], &found, verifier.pending.is_none(), script)
        })
    });
    progress.end();
    written.and_then(|()| script.flush()).map(|()| counts)
}

/// Takes one certificate after the other that nobody has taken, and sends what it comes to.
fn verify_next(
    certificates: &[Certificate],
    verifier: &Verifier,
    next: &AtomicUsize,
    sender: &Sender<(usize, CertificateVerdicts)>,
) {
    let mut index = next.fetch_add(1, Ordering::Relaxed);
    while let Some(certificate) = certificates.get(index) {
        if sender.send((index, verifier.certificate(certificate))).is_err() {
            return; // Nobody listens any more, since writing failed.
        }
        index = next.fetch_add(1, Ordering::Relaxed);
    }
}

fn write_lines<W: Write>(
    certificate: &Certificate,
    found: &CertificateVerdicts,
    is_imported: bool,
    script: &mut Script<W>,
) -> io::Result<()> {
    if is_imported {
        script.import(certificate)?;
    }
    found.verdicts.iter().try_for_each(|(number, verdict)| script.verdict(number, verdict))
}

/// What comes with numbers from 0 on, in any order, in the order of these numbers.
fn in_order<T>(receiver: Receiver<(usize, T)>) -> impl Iterator<Item = (usize, T)> {
    let mut ahead = BTreeMap::new();
    let mut next = 0;
    std::iter::from_fn(move || {
        while !ahead.contains_key(&next) {
            let (index, item) = receiver.recv().ok()?;
            ahead.insert(index, item);
        }
        let item = ahead.remove(&next)?;
        next += 1;
        Some((next - 1, item))
    })
}
