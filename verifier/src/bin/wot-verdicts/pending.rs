//! The engine's reply to `pending`: the numbers of signatures that have no verdict.

use std::collections::HashSet;
use std::io::BufRead;

use tukyamid_verify::number::Number;

/// The numbers of a reply: a line `pending K`, and K lines `sig NUM FPR HINT`. An Err says what isn't so.
pub fn read(reply: impl BufRead) -> Result<HashSet<Number>, String> {
    let mut lines = reply.lines().map(|line| line.map_err(|error| error.to_string()));
    let first = lines.next().ok_or("the reply is empty")??;
    let count: usize = first
        .strip_prefix("pending ")
        .and_then(|count| count.parse().ok())
        .ok_or_else(|| format!("the reply begins with `{first}`, not with `pending` and a number"))?;
    let mut numbers = HashSet::new();
    for _ in 0..count {
        let line = lines.next().ok_or("the reply has fewer lines than it says")??;
        let number = signature(&line).ok_or_else(|| format!("`{line}` names no signature"))?;
        numbers.insert(number);
    }
    Ok(numbers)
}

/// The number in a line `sig NUM FPR HINT`.
fn signature(line: &str) -> Option<Number> {
    let mut words = line.split(' ');
    if words.next() != Some("sig") {
        return None;
    }
    let digits = words.next().filter(|digits| digits.len() == 64 && digits.is_ascii())?;
    let mut number = [0; 32];
    for (index, octet) in number.iter_mut().enumerate() {
        *octet = u8::from_str_radix(&digits[2 * index..2 * index + 2], 16).ok()?;
    }
    Some(number)
}

#[cfg(test)]
mod tests {
    use super::*;

    #[test]
    fn a_reply_is_read_line_by_line() {
        let (one, two) = ("0a".repeat(32), "F0".repeat(32));
        let reply = format!("pending 2\nsig {one} 7f35 -\nsig {two} 7f35 00\n");
        assert_eq!(read(reply.as_bytes()), Ok(HashSet::from([[0x0a; 32], [0xf0; 32]])));
        assert_eq!(read(&b"pending 0\n"[..]), Ok(HashSet::new()));
        for reply in ["", "refused line\n", "pending x\n", "pending 1\n", "pending 1\nsig 0a 7f35 -\n"] {
            assert!(read(reply.as_bytes()).is_err(), "{reply}");
        }
    }
}
