//! gpgconf in front of the real one: it names this program where GPGME looks for gpg. All else is the real one's.

use std::env;
use std::ffi::OsString;
use std::io::{self, Write};
use std::os::unix::ffi::OsStrExt;
use std::path::Path;
use std::process::Stdio;

use crate::names::Program;
use crate::real;

/// Whether the list of programs is asked for, which is answered here.
pub fn is_asked_for_programs(words: &[OsString]) -> bool {
    words.iter().any(|word| word == "--list-components") || words.is_empty()
}

/// Lists the real programs, but this one for gpg; returns the exit status.
pub fn list_programs(words: &[OsString]) -> io::Result<u8> {
    let listed = real::command(Program::Gpgconf, words)?.stderr(Stdio::inherit()).output()?;
    let own = env::current_exe()?;
    let mut output = io::stdout().lock();
    for line in listed.stdout.split_inclusive(|octet| *octet == b'\n') {
        output.write_all(&renamed(line, &own))?;
    }
    output.flush()?;
    Ok(listed.status.code().and_then(|code| u8::try_from(code).ok()).unwrap_or(2))
}

/// `gpg:DESCRIPTION:PATH:`, with another path; any other line unchanged.
fn renamed(line: &[u8], own: &Path) -> Vec<u8> {
    let mut fields: Vec<&[u8]> = line.split(|octet| *octet == b':').collect();
    if fields.len() < 3 || fields[0] != b"gpg" {
        return line.to_vec();
    }
    let spelled = spelled(own);
    let end = if fields[2].ends_with(b"\n") { &b"\n"[..] } else { b"" };
    let path = [&spelled, end].concat();
    fields[2] = &path;
    fields.join(&b':')
}

/// As gpgconf spells a path.
fn spelled(path: &Path) -> Vec<u8> {
    let spell = |octet: &u8| match octet {
        b'%' | b':' | b',' | b'\n' => format!("%{octet:02x}").into_bytes(),
        _ => vec![*octet],
    };
    path.as_os_str().as_bytes().iter().flat_map(spell).collect()
}

#[cfg(test)]
mod tests {
    use super::*;

    #[test]
    fn gpg_alone_has_another_path() {
        let own = Path::new("/x/a:b");
        assert_eq!(renamed(b"gpg:OpenPGP:/usr/bin/gpg\n", own), b"gpg:OpenPGP:/x/a%3ab\n");
        assert_eq!(renamed(b"gpg:OpenPGP:/usr/bin/gpg:1:\n", own), b"gpg:OpenPGP:/x/a%3ab:1:\n");
        assert_eq!(renamed(b"gpgsm:S/MIME:/usr/bin/gpgsm\n", own), b"gpgsm:S/MIME:/usr/bin/gpgsm\n");
        assert_eq!(renamed(b"gpg\n", own), b"gpg\n");
    }
}
