//! Whose keyring a call is about: one's own, for which the engine answers, or another one, which is the trust itself.

use std::env;
use std::ffi::OsString;
use std::fs;
use std::path::{Path, PathBuf};

use crate::config::Config;
use crate::words::Call;

/// Whether a call is about a keyring that it names, or that of a folder of GnuPG's that isn't one's own.
pub fn is_of_named_keyring(call: &Call, config: &Config) -> bool {
    !call.has_own_keyring || !call.keyrings.is_empty() || !is_own(call, config)
}

fn is_own(call: &Call, config: &Config) -> bool {
    let usual = usual();
    let asked = match call.home.clone().or_else(|| named("GNUPGHOME")) {
        Some(home) => expanded(home),
        None => return true,
    };
    let asked = resolved(&asked);
    usual.iter().chain(&config.homes).any(|home| resolved(home) == asked)
}

/// `~/.gnupg`.
fn usual() -> Option<PathBuf> {
    named("HOME").map(|home| Path::new(&home).join(".gnupg"))
}

fn named(variable: &str) -> Option<OsString> {
    env::var_os(variable).filter(|value| !value.is_empty())
}

/// gpg takes `~/` at the beginning for the user's folder.
fn expanded(home: OsString) -> PathBuf {
    let path = PathBuf::from(home);
    match (path.strip_prefix("~"), named("HOME")) {
        (Ok(rest), Some(own)) => Path::new(&own).join(rest),
        _ => path,
    }
}

/// Where a path leads; itself if it leads nowhere.
fn resolved(path: &Path) -> PathBuf {
    fs::canonicalize(path).unwrap_or_else(|_| path.to_owned())
}
