//! A reading place in a text, for looking at what may have been meant there.
use std::ops::Range;

use crate::place::{first_character, Character};

/// How many digits a year has, and at most a day, a month, a week, an hour or minutes, and a count of days.
pub(crate) const YEAR_DIGITS: usize = 4;
pub(crate) const SHORT_DIGITS: usize = 2;
pub(crate) const COUNT_DIGITS: usize = 5;

#[derive(Clone, Copy, Debug)]
pub(crate) struct Scan<'a> {
    pub text: &'a [u8],
    pub at: usize,
}

impl<'a> Scan<'a> {
    pub fn new(text: &'a [u8], at: usize) -> Scan<'a> {
        Scan { text, at: at.min(text.len()) }
    }

    fn moved(self, bytes: usize) -> Scan<'a> {
        Scan { at: self.at + bytes, ..self }
    }

    pub fn rest(self) -> &'a [u8] {
        &self.text[self.at..]
    }

    /// From here to another place, as a text.
    pub fn until(self, end: Scan<'_>) -> Range<usize> {
        self.at..end.at
    }

    /// The letter that stands here.
    pub fn letter(self) -> Option<char> {
        match first_character(self.rest())? {
            Character::Letter(letter) => Some(letter),
            Character::IllFormed(_) => None,
        }
    }

    /// A letter of a set, and the place after it.
    pub fn one(self, wanted: impl Fn(char) -> bool) -> Option<(char, Scan<'a>)> {
        let letter = self.letter().filter(|letter| wanted(*letter))?;
        Some((letter, self.moved(letter.len_utf8())))
    }

    pub fn byte(self, byte: u8) -> Option<Scan<'a>> {
        (self.rest().first() == Some(&byte)).then(|| self.moved(1))
    }

    pub fn blanks(self) -> Scan<'a> {
        self.moved(self.rest().iter().take_while(|byte| **byte == b' ').count())
    }

    /// A number: all the digits that stand here, if they are at least one and at most so many; its value and how many they are.
    pub fn number(self, most: usize) -> Option<(u32, usize, Scan<'a>)> {
        let digits = self.rest().iter().take_while(|byte| byte.is_ascii_digit()).count();
        let value = std::str::from_utf8(&self.rest()[..digits]).ok()?.parse().ok()?;
        (digits <= most).then(|| (value, digits, self.moved(digits)))
    }

    /// A word: all the letters of an alphabet that stand here, at least one; in small letters.
    pub fn word(self) -> Option<(String, Scan<'a>)> {
        let mut end = self;
        while let Some((_, after)) = end.one(char::is_alphabetic) {
            end = after;
        }
        let word = std::str::from_utf8(&self.text[self.until(end)]).ok()?;
        (!word.is_empty()).then(|| (word.to_lowercase(), end))
    }

    /// One of these words, and the place after it.
    pub fn one_word(self, words: &[&str]) -> Option<(String, Scan<'a>)> {
        self.word().filter(|(word, _)| words.contains(&word.as_str()))
    }
}
