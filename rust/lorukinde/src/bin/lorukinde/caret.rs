//! A sheet with a caret line under one of its places.
use lorukinde::characters;

use crate::plain::{columns, shown};

/// So many characters are shown before the caret, and so many from it on.
const BEFORE: usize = 70;
const FROM: usize = 50;
/// Stands for what is not shown of a long sheet.
const CUT: &str = "...";

/// Two lines of which the second has a caret under the character at the place: the sheet, or of a long one what stands around it.
pub fn lines(sheet: &[u8], place: usize) -> (String, String) {
    let before: Vec<char> = characters(&sheet[..place]).map(|(_, character)| shown(character.shown())).collect();
    let from: Vec<char> = characters(&sheet[place..]).map(|(_, character)| shown(character.shown())).take(FROM + 1).collect();
    let (hidden, before) = before.split_at(before.len().saturating_sub(BEFORE));
    let left = if hidden.is_empty() { "" } else { CUT };
    let right = if from.len() > FROM { CUT } else { "" };
    let line: String = before.iter().chain(from.iter().take(FROM)).collect();
    let under: String = before.iter().map(|letter| under(*letter)).collect();
    (format!("{left}{line}{right}"), format!("{}{under}^", " ".repeat(left.len())))
}

/// What stands under a character, so that what comes after it lines up.
fn under(letter: char) -> &'static str {
    match (letter, columns(letter)) {
        ('\t', _) => "\t",
        (_, 0) => "",
        (_, 1) => " ",
        _ => "  ",
    }
}

#[cfg(test)]
mod tests {
    use super::*;

    #[test]
    fn the_caret_lines_up() {
        assert_eq!(lines(b"Mo x", 3), ("Mo x".into(), "   ^".into()));
        assert_eq!(lines(b"Mo", 2), ("Mo".into(), "  ^".into()));
        assert_eq!(lines(b"", 0), ("".into(), "^".into()));
        assert_eq!(lines(b"\tMo\tx", 4), ("\tMo\tx".into(), "\t  \t^".into()));
        assert_eq!(lines(b"\xff\0\x1bx", 3), ("\u{fffd}\u{2400}\u{241b}x".into(), "   ^".into()));
        let wide = "\"\u{6e29}\u{6cc9}\" e\u{301}\u{200b}x".as_bytes();
        assert_eq!(lines(wide, wide.len() - 1).1, format!("{}^", " ".repeat(9)));
    }

    #[test]
    fn a_long_sheet_is_cut() {
        let long = [&b"Mo,".repeat(100)[..], b"x", &b",Tu".repeat(100)].concat();
        let (line, caret) = lines(&long, 300);
        assert!(line.starts_with(CUT) && line.ends_with(CUT) && line.len() == 2 * CUT.len() + BEFORE + FROM);
        assert_eq!(line.as_bytes()[caret.len() - 1], b'x');
    }
}
