//! Text for people in which a name or a word may hold anything.

/// A line of a program's own, in which a file's name may hold anything.
pub fn on_one_line(text: &str) -> String {
    text.chars().fold(String::new(), |mut line, character| {
        push(&mut line, character);
        line
    })
}

/// Appends a character, or how it is spelled if a terminal wouldn't show it as itself.
pub fn push(text: &mut String, character: char) {
    match is_plain(character) {
        true => text.push(character),
        false => text.push_str(&format!("\\u{{{:x}}}", u32::from(character))),
    }
}

/// Whether a character is shown as itself: it is neither a control character nor one that changes the direction or has
/// no width.
fn is_plain(character: char) -> bool {
    let is_odd = matches!(character,
        '\u{ad}' | '\u{61c}' | '\u{115f}' | '\u{1160}' | '\u{180e}' | '\u{200b}'..='\u{200f}' | '\u{2028}'..='\u{202e}'
        | '\u{2060}'..='\u{206f}' | '\u{3164}' | '\u{fe00}'..='\u{fe0f}' | '\u{feff}' | '\u{ffa0}'
        | '\u{fff0}'..='\u{fffb}' | '\u{e0000}'..='\u{e0fff}');
    !is_odd && !character.is_control()
}

#[cfg(test)]
mod tests {
    use super::*;

    #[test]
    fn a_name_makes_no_line_of_its_own() {
        assert_eq!(on_one_line("'a\n\x1b' \\u{a} \u{202e}ü"), "'a\\u{a}\\u{1b}' \\u{a} \\u{202e}ü");
    }
}
