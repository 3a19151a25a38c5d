//! What a list takes Sequoia's library: every binding that somebody certifies, each asked for the full amount.
//!
//!     peer KEYRING TIME ROOT..
//!
//! TIME is in seconds since 1970, and the library's policy is the one of that time; a ROOT is the fingerprint of a root
//! of amount 120. Prints the numbers of certificates, of certifications by others, of bindings and of those that reach
//! the amount, and then the seconds of reading, of making the network (signatures are verified in it) and of the list.

use std::time::{Duration, Instant, UNIX_EPOCH};

use anyhow::{bail, Result};
use sequoia_openpgp::cert::{Cert, CertParser};
use sequoia_openpgp::parse::Parse;
use sequoia_openpgp::policy::StandardPolicy;
use sequoia_openpgp::Fingerprint;
use sequoia_wot::{Network, Root, RootedNetwork, Roots};

const FULL: usize = 120;

/// The certificates of a keyring; those that the library can't read are left out.
fn read(path: &str) -> Result<Vec<Cert>> {
    Ok(CertParser::from_file(path)?.filter_map(Result::ok).collect())
}

fn roots(words: &[String]) -> Result<Roots> {
    let mut roots = Vec::new();
    for word in words {
        roots.push(Root::new(word.parse::<Fingerprint>()?, FULL));
    }
    Ok(Roots::new(roots))
}

fn main() -> Result<()> {
    let words: Vec<String> = std::env::args().skip(1).collect();
    if words.len() < 3 {
        bail!("peer KEYRING TIME ROOT..");
    }
    let time = UNIX_EPOCH + Duration::from_secs(words[1].parse()?);
    let roots = roots(&words[2..])?;

    let begun = Instant::now();
    let certificates = read(&words[0])?;
    let reading = begun.elapsed().as_secs_f64();
    let count = certificates.len();

    let begun = Instant::now();
    let policy = StandardPolicy::at(time);
    let network = Network::from_certs(certificates.into_iter(), &policy, time)?;
    let making = begun.elapsed().as_secs_f64();
    let certifications = network.third_party_certifications().count();

    let begun = Instant::now();
    let rooted = RootedNetwork::new(&network, roots);
    let mut bindings = network.certified_userids();
    bindings.sort();
    let mut reached = 0;
    for (fingerprint, user_id) in &bindings {
        let paths = rooted.authenticate(user_id, fingerprint, FULL);
        reached += usize::from(paths.amount() >= FULL);
    }
    let listing = begun.elapsed().as_secs_f64();

    println!("{} {} {} {} {:.6} {:.6} {:.6}", count, certifications, bindings.len(), reached, reading, making, listing);
    Ok(())
}
