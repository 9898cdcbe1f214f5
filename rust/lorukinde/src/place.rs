//! Where something stands, as people count, and what stands there: characters, and not bytes.

/// A place of a text as people count it: lines and, in its line, characters, both from 1.
#[derive(Clone, Copy, Debug, PartialEq, Eq, PartialOrd, Ord, Hash)]
pub struct Position {
    pub line: usize,
    pub column: usize,
}

impl Position {
    /// The position of the byte at a place; of the text's end, for a place after it. Lines are parted by byte 10.
    pub fn of(text: &[u8], place: usize) -> Position {
        let before = &text[..place.min(text.len())];
        let line_begin = before.iter().rposition(|byte| *byte == b'\n').map_or(0, |newline| newline + 1);
        Position {
            line: 1 + before.iter().filter(|byte| **byte == b'\n').count(),
            column: 1 + characters(&before[line_begin..]).count(),
        }
    }
}

/// A character of a text: a letter (a Unicode scalar value), or a byte that is none. So a text of any bytes can be counted and shown.
#[derive(Clone, Copy, Debug, PartialEq, Eq, Hash)]
pub enum Character {
    Letter(char),
    IllFormed(u8),
}

impl Character {
    /// How many bytes it has in the text.
    pub fn bytes(self) -> usize {
        match self {
            Character::Letter(letter) => letter.len_utf8(),
            Character::IllFormed(_) => 1,
        }
    }

    /// The letter; for a byte that is none, U+FFFD.
    pub fn shown(self) -> char {
        match self {
            Character::Letter(letter) => letter,
            Character::IllFormed(_) => char::REPLACEMENT_CHARACTER,
        }
    }
}

/// The characters of a text, each with its place.
pub fn characters(text: &[u8]) -> Characters<'_> {
    Characters { text, place: 0 }
}

/// The characters of a text, from [`characters`].
#[derive(Clone, Debug)]
pub struct Characters<'a> {
    text: &'a [u8],
    place: usize,
}

impl Iterator for Characters<'_> {
    type Item = (usize, Character);

    fn next(&mut self) -> Option<(usize, Character)> {
        let place = self.place;
        let character = first_character(&self.text[place..])?;
        self.place += character.bytes();
        Some((place, character))
    }
}

/// The character with which a text begins.
pub(crate) fn first_character(text: &[u8]) -> Option<Character> {
    const MOST_BYTES: usize = 4;
    let first = *text.first()?;
    if first.is_ascii() {
        return Some(Character::Letter(char::from(first)));
    }
    let letter = (1..=text.len().min(MOST_BYTES)).find_map(|n| std::str::from_utf8(&text[..n]).ok()?.chars().next());
    Some(letter.map_or(Character::IllFormed(first), Character::Letter))
}

/// A text to be shown, each byte that is no letter as U+FFFD.
pub fn shown(text: &[u8]) -> String {
    characters(text).map(|(_, character)| character.shown()).collect()
}
