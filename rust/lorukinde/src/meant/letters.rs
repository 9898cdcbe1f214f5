//! A text as an operator sees it: small letters, every dash a `-`, every blank a blank.
use std::ops::Range;

use crate::place::characters;

/// The letters of a text, each with its place.
pub(crate) struct Letters<'a> {
    pub text: &'a [u8],
    pub all: Vec<char>,
    places: Vec<usize>,
}

impl<'a> Letters<'a> {
    pub fn of(text: &'a [u8]) -> Letters<'a> {
        let mut letters = Letters { text, all: Vec::new(), places: Vec::new() };
        for (place, character) in characters(text) {
            if let Some(letter) = seen(character.shown()) {
                letters.all.push(letter);
                letters.places.push(place);
            }
        }
        letters
    }

    pub fn get(&self, at: usize) -> Option<char> {
        self.all.get(at).copied()
    }

    /// Where a letter stands in the text.
    pub fn place(&self, at: usize) -> usize {
        self.places.get(at).copied().unwrap_or(self.text.len())
    }

    /// The bytes of some letters, without what cannot be seen after them.
    pub fn range(&self, from: usize, to: usize) -> Range<usize> {
        let last = characters(&self.text[self.place(to - 1)..]).next().map_or(0, |(_, character)| character.bytes());
        self.place(from)..self.place(to - 1) + last
    }

    /// What stands there, as it is written.
    pub fn written(&self, from: usize, to: usize) -> Option<&'a str> {
        std::str::from_utf8(&self.text[self.place(from)..self.place(to)]).ok()
    }

    pub fn after_blanks(&self, at: usize) -> usize {
        at + self.all[at.min(self.all.len())..].iter().take_while(|letter| **letter == ' ').count()
    }

    /// A number of so many digits at most: its value, how many digits it has, and where it ends.
    pub fn number(&self, at: usize, most: usize) -> Option<(u32, usize, usize)> {
        let digits: String = self.all.get(at..)?.iter().take_while(|letter| letter.is_ascii_digit()).collect();
        let value = digits.parse().ok()?;
        (digits.len() <= most).then_some((value, digits.len(), at + digits.len()))
    }
}

/// A letter as it is seen; None for one that cannot be seen.
fn seen(letter: char) -> Option<char> {
    match letter {
        '\u{ad}' | '\u{2010}'..='\u{2015}' | '\u{2043}' | '\u{2212}' | '\u{fe63}' | '\u{ff0d}' | '~' => Some('-'),
        '\u{feff}' | '\u{200b}'..='\u{200f}' | '\u{2060}' => None,
        '\u{ff1a}' => Some(':'),
        other if other.is_whitespace() => Some(' '),
        other => other.to_lowercase().next(),
    }
}
