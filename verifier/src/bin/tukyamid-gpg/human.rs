//! Text for people, as gpg writes it: a user sees this in `git log`, in mail programs and on the terminal.

use std::ffi::CString;

use tukyamid_verify::fingerprint::Fingerprint;
pub use tukyamid_verify::shown::on_one_line;
use tukyamid_verify::shown::push;

/// A text that a stranger wrote, on one line and without what alters how the rest is shown.
pub fn shown(octets: &[u8]) -> String {
    let mut text = String::new();
    for character in String::from_utf8_lossy(octets).chars() {
        match character {
            '\\' => text.push_str("\\\\"),
            '"' => text.push_str("\\\""),
            _ => push(&mut text, character),
        }
    }
    text
}

/// `Thu Feb 22 22:13:20 2024 UTC`, in the local time.
pub fn date(seconds: u32) -> String {
    formatted(seconds, b"%a %b %e %H:%M:%S %Y %Z\0", libc::localtime_r)
}

/// Has the C library read what the local time is, as long as it can open the file.
pub fn read_zone() {
    date(0);
}

/// `2024-02-22`, in universal time.
pub fn day(seconds: u32) -> String {
    formatted(seconds, b"%Y-%m-%d\0", libc::gmtime_r)
}

/// `2024-02-22T22:13:20Z`.
pub fn instant(seconds: u32) -> String {
    formatted(seconds, b"%Y-%m-%dT%H:%M:%SZ\0", libc::gmtime_r)
}

/// The seconds since 1970 of such a text.
pub fn seconds_of(instant: &str) -> Option<u32> {
    let text = CString::new(instant).ok()?;
    let format = b"%Y-%m-%dT%H:%M:%SZ\0";
    let seconds = unsafe {
        let mut parts: libc::tm = std::mem::zeroed();
        let end = libc::strptime(text.as_ptr(), format.as_ptr().cast(), &mut parts);
        if end.is_null() || *end != 0 {
            return None;
        }
        libc::timegm(&mut parts)
    };
    u32::try_from(seconds).ok()
}

type Parts = unsafe extern "C" fn(*const libc::time_t, *mut libc::tm) -> *mut libc::tm;

fn formatted(seconds: u32, format: &[u8], parts_of: Parts) -> String {
    let time = libc::time_t::from(seconds);
    let mut text = [0_u8; 80];
    let written = unsafe {
        let mut parts: libc::tm = std::mem::zeroed();
        if parts_of(&time, &mut parts).is_null() {
            return seconds.to_string();
        }
        libc::strftime(text.as_mut_ptr().cast(), text.len(), format.as_ptr().cast(), &parts)
    };
    String::from_utf8_lossy(&text[..written]).into_owned()
}

/// `36B5 08A8 441B ..`, as gpg groups it.
pub fn grouped(fingerprint: &Fingerprint) -> String {
    let digits = fingerprint.to_string().to_uppercase();
    let groups: Vec<&str> = (0..digits.len()).step_by(4).map(|place| &digits[place..place + 4]).collect();
    let (front, rest) = groups.split_at(groups.len() / 2);
    format!("{}  {}", front.join(" "), rest.join(" "))
}

/// gpg's names of public-key algorithms.
pub fn key_algorithm(number: u8) -> String {
    match number {
        1..=3 => "RSA".to_owned(),
        17 => "DSA".to_owned(),
        19 => "ECDSA".to_owned(),
        22 => "EDDSA".to_owned(),
        27 => "ED25519".to_owned(),
        28 => "ED448".to_owned(),
        other => format!("?{other}"),
    }
}

#[cfg(test)]
mod tests {
    use super::*;

    #[test]
    fn a_strange_text_stays_on_its_line() {
        assert_eq!(shown("Zoë <z@x>".as_bytes()), "Zoë <z@x>");
        assert_eq!(shown(b"a\n[GNUPG:] b\r\x1b\"\\\xff"), "a\\u{a}[GNUPG:] b\\u{d}\\u{1b}\\\"\\\\\u{fffd}");
        assert_eq!(shown("\u{202e}x\u{200b}".as_bytes()), "\\u{202e}x\\u{200b}");
    }

    #[test]
    fn days_are_those_of_the_calendar() {
        // As `date -u -d @SECONDS +%F` has them.
        for (seconds, day_) in [
            (0, "1970-01-01"),
            (951_782_399, "2000-02-28"),
            (951_782_400, "2000-02-29"),
            (951_868_800, "2000-03-01"),
            (1_708_640_000, "2024-02-22"),
            (4_107_542_400, "2100-03-01"),
            (u32::MAX, "2106-02-07"),
        ] {
            assert_eq!(day(seconds), day_);
        }
    }

    #[test]
    fn instants_are_read_and_written() {
        assert_eq!(instant(1_708_640_000), "2024-02-22T22:13:20Z");
        assert_eq!(seconds_of("2024-02-22T22:13:20Z"), Some(1_708_640_000));
        for text in ["", "2024-02-22", "2024-02-22T22:13:20Zx", "x", "1900-01-01T00:00:00Z", "a\0b"] {
            assert_eq!(seconds_of(text), None, "{text}");
        }
    }

    #[test]
    fn fingerprints_are_grouped_as_gpg_groups_them() {
        let fingerprint = Fingerprint::V4([0x36; 20]);
        assert_eq!(grouped(&fingerprint), "3636 3636 3636 3636 3636  3636 3636 3636 3636 3636");
    }
}
