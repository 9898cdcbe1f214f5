//! What stands at a place, in words.
use crate::place::Character;

/// A character by itself where it can be seen, and by its code and its name where it may be taken for another.
pub(crate) fn named(character: Character) -> String {
    match character {
        Character::IllFormed(byte) => format!("the byte {byte:#04x}, which is no letter,"),
        Character::Letter(' ') => "a blank".into(),
        Character::Letter('\t') => "a tab".into(),
        Character::Letter(letter) => match (letter.is_ascii_graphic(), name(letter)) {
            (true, _) => format!("`{letter}`"),
            (false, Some(name)) => format!("{name} (U+{:04X})", u32::from(letter)),
            (false, None) if letter.is_control() => format!("the byte {:#04x}", u32::from(letter)),
            (false, None) => format!("`{letter}` (U+{:04X})", u32::from(letter)),
        },
    }
}

/// The name of a character that is hard to tell from another, or not seen at all.
fn name(letter: char) -> Option<String> {
    let name = match letter {
        '\u{a0}' | '\u{202f}' => "a no-break blank",
        '\u{2000}'..='\u{200a}' | '\u{3000}' => "a wide or thin blank",
        '\u{200b}'..='\u{200f}' | '\u{2060}' => "a character that cannot be seen",
        '\u{feff}' => "a byte order mark, which cannot be seen",
        '\u{2010}' | '\u{2011}' | '\u{ad}' => "a hyphen",
        '\u{2012}'..='\u{2015}' => return Some(format!("the long dash `{letter}`")),
        '\u{2212}' => return Some(format!("the minus sign `{letter}`")),
        '\u{ab}' | '\u{bb}' | '\u{2018}'..='\u{201f}' | '\u{2039}' | '\u{203a}' => return Some(format!("the quote `{letter}`")),
        _ => return None,
    };
    Some(name.into())
}
