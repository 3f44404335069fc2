//! Reads a text of twelve letters, and says what is wrong with one that is none.

use std::ffi::OsStr;
use std::os::unix::ffi::OsStrExt;

use bicycle::QUBITS;

use crate::told::Stop;

/// The string that a text spells, qubit 11 first and qubit 0 last, in either case. A text that was
/// mirrored is read too, as another string: nothing in it says its direction.
pub fn read(text: &OsStr) -> Result<u32, Stop> {
    bicycle::from_text(text.as_bytes())
        .map_err(|r| Stop::refused(r, trouble(&text.to_string_lossy())))
}

/// The library says only that a text is none; a typist is helped by the place.
fn trouble(text: &str) -> String {
    let mut characters = (1..).zip(text.chars());
    let here = match characters.find(|(_, c)| !"IXZYixzy".contains(*c)) {
        Some((i, c)) => format!("character {i} is {}", named(c)),
        None => format!("here are {}", text.len()),
    };
    format!(
        "A text is {QUBITS} letters of I, X, Z and Y alone, qubit 11 first and qubit 0 last: {here}."
    )
}

/// A character by its code where it might not be seen, or turn the line around.
fn named(c: char) -> String {
    match c {
        '!'..='~' => format!("'{c}'"),
        '\u{61c}' | '\u{200e}' | '\u{200f}' | '\u{202a}'..='\u{202e}' | '\u{2066}'..='\u{2069}' => {
            format!("U+{:04X}, an invisible mark of direction", c as u32)
        }
        _ => format!("U+{:04X}", c as u32),
    }
}

#[cfg(test)]
mod tests {
    use super::*;

    #[test]
    fn the_sentence_names_the_place() {
        let says = |text: &str, end: &str| {
            let sentence = trouble(text);
            assert!(sentence.ends_with(end), "{sentence}");
        };
        says("", "last: here are 0.");
        says("IIIIIIIIIIIII", "last: here are 13.");
        says("IIIIXYIIIIA", "last: character 11 is 'A'.");
        says("IIIIXYIIIII ", "last: character 12 is U+0020.");
        // a letter of another alphabet that looks like X
        says("IIII\u{425}YIIIIIX", "last: character 5 is U+0425.");
        let mark = "last: character 1 is U+202E, an invisible mark of direction.";
        says("\u{202e}XIIIIIYXIIII", mark);
    }
}
