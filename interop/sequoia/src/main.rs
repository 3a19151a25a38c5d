//! Answers cases of the suite with Sequoia's library of the web of trust.
//!
//! Reads a case from each line of standard input, and writes its answer as a line (`interop/README.md` has both). The
//! library's policy is its standard one as of the case's time. Certificates that the library can't parse are left out.

use std::io::{self, BufRead, Write};
use std::time::{Duration, SystemTime, UNIX_EPOCH};

use anyhow::{anyhow, Context, Result};
use sequoia_openpgp::cert::{Cert, CertParser};
use sequoia_openpgp::fmt::hex;
use sequoia_openpgp::packet::UserID;
use sequoia_openpgp::parse::Parse;
use sequoia_openpgp::policy::StandardPolicy;
use sequoia_openpgp::Fingerprint;
use sequoia_wot::{Network, Path, Paths, Root, RootedNetwork, Roots};
use serde_json::{json, Value};

const FULL: u64 = 120;

fn main() -> Result<()> {
    if std::env::args().nth(1).as_deref() == Some("--version") {
        println!("sequoia-wot 0.2 (sequoia-openpgp {})", sequoia_openpgp::VERSION);
        return Ok(());
    }
    let mut output = io::stdout().lock();
    for line in io::stdin().lock().lines() {
        let answer = answer(&serde_json::from_str(&line?)?)?;
        writeln!(output, "{answer}")?;
        output.flush()?;
    }
    Ok(())
}

/// The answer to a case.
fn answer(case: &Value) -> Result<Value> {
    let time = UNIX_EPOCH + Duration::from_secs(case["time"].as_u64().context("time")?);
    let certificates = certificates(case)?;
    let roots = roots(case)?;
    let question = &case["question"];
    let target: Fingerprint = text(&question["fingerprint"])?.parse()?;
    let wanted = question["amount"].as_u64().unwrap_or(FULL) as usize;
    match paths(certificates, roots, time, &user_id(question)?, &target, wanted) {
        Ok(paths) => Ok(json!({"amount": paths.amount(), "paths": as_values(&paths)})),
        Err(error) => Ok(json!({"error": format!("the library reports an error: {error}")})),
    }
}

/// Authenticates the binding in the network of these certificates.
fn paths(
    certificates: Vec<Cert>,
    roots: Roots,
    time: SystemTime,
    user_id: &UserID,
    target: &Fingerprint,
    wanted: usize,
) -> Result<Paths> {
    let policy = StandardPolicy::at(time);
    let network = Network::from_certs(certificates.into_iter(), &policy, time)?;
    Ok(RootedNetwork::new(&network, roots).authenticate(user_id, target, wanted))
}

/// The certificates of a case that the library can parse.
fn certificates(case: &Value) -> Result<Vec<Cert>> {
    let mut found = Vec::new();
    for one in list(&case["certificates"])? {
        if let Ok(parser) = CertParser::from_bytes(&base64::decode(text(one)?)?) {
            found.extend(parser.filter_map(Result::ok));
        }
    }
    Ok(found)
}

/// The roots of a case. One of amount 0 is no root.
fn roots(case: &Value) -> Result<Roots> {
    let mut roots = Vec::new();
    for one in list(&case["roots"])? {
        let amount = one["amount"].as_u64().context("a root's amount")? as usize;
        if amount > 0 {
            roots.push(Root::new(text(&one["fingerprint"])?.parse()?, amount));
        }
    }
    Ok(Roots::new(roots))
}

fn user_id(question: &Value) -> Result<UserID> {
    match question.get("user_id_hex") {
        Some(digits) => Ok(UserID::from(hex::decode(text(digits)?)?)),
        None => Ok(UserID::from(text(&question["user_id"])?)),
    }
}

fn as_values(paths: &Paths) -> Vec<Value> {
    paths.iter().map(|(path, amount)| json!({"amount": amount, "certificates": names(path)})).collect()
}

/// The fingerprints of a path's certificates, from the root to the target.
fn names(path: &Path) -> Vec<String> {
    path.certificates().map(|one| one.fingerprint().to_hex()).collect()
}

fn list(value: &Value) -> Result<&Vec<Value>> {
    value.as_array().ok_or_else(|| anyhow!("{value} isn't a list"))
}

fn text(value: &Value) -> Result<&str> {
    value.as_str().ok_or_else(|| anyhow!("{value} isn't text"))
}
