//! Text for a terminal: every character takes its place and does nothing else.
use std::fmt;

use lorukinde::{characters, Character};

/// The character by which another is shown. A tab stays, so that what stands under it lines up; other controls are shown by their
/// signs (`␀`), and what else cannot be seen, or is no letter, by U+FFFD.
pub fn shown(letter: char) -> char {
    const SIGNS_OF_CONTROLS: u32 = 0x2400;
    const SIGN_OF_DELETE: char = '\u{2421}';
    match letter {
        '\t' => '\t',
        '\0'..='\x1f' => char::from_u32(SIGNS_OF_CONTROLS + u32::from(letter)).unwrap_or(char::REPLACEMENT_CHARACTER),
        '\x7f' => SIGN_OF_DELETE,
        '\u{80}'..='\u{9f}' | '\u{ad}' | '\u{200b}'..='\u{200f}' | '\u{2028}'..='\u{202e}' => char::REPLACEMENT_CHARACTER,
        '\u{2060}'..='\u{206f}' | '\u{feff}' => char::REPLACEMENT_CHARACTER,
        other => other,
    }
}

/// How many columns of a terminal a character that is shown takes: two for the letters of East Asia and for pictures, none for
/// marks that join the letter before.
pub fn columns(letter: char) -> usize {
    match letter {
        '\u{300}'..='\u{36f}' | '\u{1ab0}'..='\u{1aff}' | '\u{20d0}'..='\u{20ff}' | '\u{fe00}'..='\u{fe0f}' => 0,
        '\u{1100}'..='\u{115f}' | '\u{2e80}'..='\u{303e}' | '\u{3041}'..='\u{a4cf}' | '\u{ac00}'..='\u{d7a3}' => 2,
        '\u{f900}'..='\u{faff}' | '\u{fe30}'..='\u{fe6f}' | '\u{ff00}'..='\u{ff60}' | '\u{ffe0}'..='\u{ffe6}' => 2,
        '\u{1f300}'..='\u{1f64f}' | '\u{1f680}'..='\u{1f6ff}' | '\u{1f900}'..='\u{1f9ff}' | '\u{20000}'..='\u{3fffd}' => 2,
        _ => 1,
    }
}

/// Whether a byte is a character that is shown as it is.
pub fn is_plain(byte: &u8) -> bool {
    (b' '..=b'~').contains(byte)
}

/// Writes text to the output, each character as it is shown.
pub struct Plain<'a>(pub &'a mut Vec<u8>);

impl Plain<'_> {
    pub fn bytes(&mut self, text: &[u8]) {
        if text.iter().all(is_plain) {
            return self.0.extend_from_slice(text); // nearly every text, at once
        }
        for (_, character) in characters(text) {
            self.character(character);
        }
    }

    fn character(&mut self, character: Character) {
        let mut space = [0; 4];
        self.0.extend_from_slice(shown(character.shown()).encode_utf8(&mut space).as_bytes());
    }
}

impl fmt::Write for Plain<'_> {
    fn write_str(&mut self, text: &str) -> fmt::Result {
        self.bytes(text.as_bytes());
        Ok(())
    }
}
