//! Texts with a cleartext signature (RFC 9580, section 7).

use std::io::{self, BufRead, Read};

const BEGIN: &[u8] = b"-----BEGIN PGP SIGNED MESSAGE-----";
const SIGNATURE: &[u8] = b"-----BEGIN PGP SIGNATURE-----";
/// RFC 9580, section 9.5.
const HASHES: [&str; 9] =
    ["MD5", "SHA1", "RIPEMD160", "SHA256", "SHA384", "SHA512", "SHA224", "SHA3-256", "SHA3-512"];
/// A longer line is refused, since it is held in memory.
const LONGEST_LINE: u64 = 1 << 24;
const LONGEST_SIGNATURES: u64 = 1 << 24;

/// Whether a line begins such a text. Spaces at its end aren't seen, and gpg lets them pass.
pub fn is_begun_by(line: &[u8]) -> bool {
    line.without_end().strip_prefix(BEGIN).map_or(false, |rest| rest.trim_spaces().is_empty())
}

/// Whether a line ends what is signed, and begins the signatures.
pub fn is_ended_by(line: &[u8]) -> bool {
    line.without_end() == SIGNATURE
}

/// Hands on what is signed, piece by piece, and returns the armored signatures after it. The text begins with the line
/// that begins it, and has nothing after the signatures. Lines end with a line feed, and the last line doesn't end.
pub fn take_apart(text: &mut dyn BufRead, data: &mut dyn FnMut(&[u8]) -> io::Result<()>) -> io::Result<Vec<u8>> {
    let mut line = Vec::new();
    next_line(text, &mut line)?;
    if !is_begun_by(&line) {
        return Err(invalid("no signed text begins here"));
    }
    next_line(text, &mut line)?;
    while !line.without_end().is_empty() {
        if !names_hashes(line.without_end()) {
            return Err(invalid("a signed text has another armor header than `Hash` with names of hash algorithms"));
        }
        next_line(text, &mut line)?;
    }
    let mut is_first = true;
    loop {
        next_line(text, &mut line)?;
        if is_ended_by(&line) {
            if text.take(LONGEST_SIGNATURES).read_to_end(&mut line)? as u64 == LONGEST_SIGNATURES {
                return Err(invalid("its signatures are too long"));
            }
            return Ok(line);
        }
        if !is_first {
            data(b"\n")?;
        }
        is_first = false;
        data(signed_part(&line)?)?;
    }
}

/// Whether an armor header is the one that RFC 9580 allows here (section 7). Others would be text that looks signed.
fn names_hashes(header: &[u8]) -> bool {
    let is_name = |name: &[u8]| HASHES.iter().any(|one| one.as_bytes() == name.trim_spaces());
    header.strip_prefix(b"Hash:").map_or(false, |names| names.split(|octet| *octet == b',').all(is_name))
}

/// Reads a line in place of another one; an error if there is none.
fn next_line(text: &mut dyn BufRead, line: &mut Vec<u8>) -> io::Result<()> {
    line.clear();
    let length = text.take(LONGEST_LINE).read_until(b'\n', line)? as u64;
    if length == 0 {
        return Err(io::ErrorKind::UnexpectedEof.into());
    }
    if length == LONGEST_LINE { Err(invalid("a line is too long")) } else { Ok(()) }
}

/// A line without the mark of its dash, and without the spaces at its end.
fn signed_part(line: &[u8]) -> io::Result<&[u8]> {
    let line = match line.strip_prefix(b"- ") {
        Some(line) => line,
        None if line.starts_with(b"-") => return Err(invalid("a line that begins with a dash isn't marked")),
        None => line,
    };
    let is_space = |octet: &u8| matches!(octet, b' ' | b'\t' | b'\r' | b'\n');
    let end = line.iter().rposition(|octet| !is_space(octet)).map_or(0, |last| last + 1);
    Ok(&line[..end])
}

fn invalid(why: &str) -> io::Error {
    io::Error::new(io::ErrorKind::InvalidData, why)
}

trait Line {
    /// Without the line feed at its end, and a carriage return before it.
    fn without_end(&self) -> &[u8];
    /// Without spaces and tabs at both ends.
    fn trim_spaces(&self) -> &[u8];
}

impl Line for [u8] {
    fn without_end(&self) -> &[u8] {
        let line = self.strip_suffix(b"\n").unwrap_or(self);
        line.strip_suffix(b"\r").unwrap_or(line)
    }

    fn trim_spaces(&self) -> &[u8] {
        let is_text = |octet: &u8| !matches!(octet, b' ' | b'\t');
        let begin = self.iter().position(is_text).unwrap_or(self.len());
        let end = self.iter().rposition(is_text).map_or(begin, |last| last + 1);
        &self[begin..end]
    }
}

#[cfg(test)]
mod tests {
    use super::*;

    fn apart(text: &str) -> io::Result<(String, String)> {
        let mut data = Vec::new();
        let signatures = take_apart(&mut text.as_bytes(), &mut |piece| {
            data.extend_from_slice(piece);
            Ok(())
        })?;
        Ok((String::from_utf8(data).unwrap(), String::from_utf8(signatures).unwrap()))
    }

    const HEAD: &str = "-----BEGIN PGP SIGNED MESSAGE-----\n";

    #[test]
    fn lines_lose_their_marks_and_ends() {
        let lines = "a \t\r\n- - b\n\n- -----BEGIN c";
        let head = format!("{HEAD}Hash: SHA512\nHash: SHA1, SHA3-256,SHA256 \r\n\n");
        let text = format!("{head}{lines}\n-----BEGIN PGP SIGNATURE-----\nd");
        let expected = ("a\n- b\n\n-----BEGIN c".to_owned(), "-----BEGIN PGP SIGNATURE-----\nd".to_owned());
        assert_eq!(apart(&text).unwrap(), expected);
        let empty = format!("{HEAD}\n-----BEGIN PGP SIGNATURE-----\r\n");
        assert_eq!(apart(&empty).unwrap().0, "");
        assert_eq!(apart(&empty.replace("MESSAGE-----", "MESSAGE----- \t")).unwrap().0, "");
    }

    #[test]
    fn what_isnt_well_formed_is_an_error() {
        for text in [
            "a\n".to_owned(),
            HEAD.to_owned(),
            format!("{HEAD}\na\n"),
            format!("a\n{HEAD}\na\n-----BEGIN PGP SIGNATURE-----\n"),
            format!("{HEAD}Comment: x\n\na\n-----BEGIN PGP SIGNATURE-----\n"),
            format!("{HEAD}NotDashEscaped: You need GnuPG\n\na\n-----BEGIN PGP SIGNATURE-----\n"),
            format!("{HEAD}Hash: SHA512 and pay 100 to Mallory\n\na\n-----BEGIN PGP SIGNATURE-----\n"),
            format!("{HEAD}Hash:\n\na\n-----BEGIN PGP SIGNATURE-----\n"),
            format!("{HEAD}Hash: SHA512,\n\na\n-----BEGIN PGP SIGNATURE-----\n"),
            format!("{HEAD} \na\n-----BEGIN PGP SIGNATURE-----\n"),
            format!("{HEAD}\n-a\n-----BEGIN PGP SIGNATURE-----\n"),
        ] {
            assert!(apart(&text).is_err(), "{text:?}");
        }
    }
}
