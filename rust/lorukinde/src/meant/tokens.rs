//! The words, numbers and signs of a text, each with what an operator means by it.
use std::ops::Range;

use super::letters::Letters;
use super::lexicon::{self, EXCEPT, NOTHING};
use super::numbers;
use crate::found::named;
use crate::names::{MONTHS, STATES, WEEKDAYS};
use crate::place::{characters, Character};

/// What a word, a number or a sign means.
#[derive(Clone, Debug, PartialEq)]
pub(crate) enum What {
    /// A name, as the rules write it, or a word for a sign.
    Name(&'static str),
    /// A number, and how many digits it has.
    Number(u32, usize),
    /// Minutes since midnight.
    Clock(Clock),
    /// A year, a month and a day.
    Date(Option<u32>, usize, u32),
    /// All hours of a day.
    WholeDay,
    /// `[1,-1]`
    Marks(String),
    /// ` +1 day`
    Offset(String),
    Note(String),
    /// An event with its offset, `(sunset-1:00)`.
    Event(String),
    Sign(char),
    /// A word that is not known.
    Unknown(String),
}

#[derive(Clone, Debug, PartialEq)]
pub(crate) struct Clock {
    pub minutes: u32,
    /// Whether it says which half of the day it is in.
    pub has_half: bool,
    /// As it is written, if the rules write it so.
    pub formal: Option<String>,
}

#[derive(Clone, Debug, PartialEq)]
pub(crate) struct Token {
    pub what: What,
    pub range: Range<usize>,
    /// Whether a blank stands before it.
    pub is_apart: bool,
    /// What is unusual about it.
    pub because: Option<String>,
}

impl Token {
    pub fn is_sign(&self, sign: char) -> bool {
        self.what == What::Sign(sign)
    }

    pub fn name(&self) -> Option<&'static str> {
        match self.what {
            What::Name(name) => Some(name),
            _ => None,
        }
    }
}

/// How words are taken: a column of the lexicon, and which of the meanings of a word that has more than one.
#[derive(Clone, Copy, Debug, PartialEq)]
pub(crate) struct Tongue {
    pub language: usize,
    pub choice: usize,
}

pub(super) struct Lexer<'a> {
    pub letters: Letters<'a>,
    pub tongue: Tongue,
    pub tokens: Vec<Token>,
    /// How many words the language itself has, and how many are not known.
    pub own: usize,
    pub unknown: usize,
    in_brackets: bool,
}

/// What a text says, word by word; None where something stands that nobody can mean.
pub(super) fn tokens(text: &[u8], tongue: Tongue) -> Option<Lexer<'_>> {
    let letters = Letters::of(text);
    let mut lexer = Lexer { letters, tongue, tokens: Vec::new(), own: 0, unknown: 0, in_brackets: false };
    let mut at = 0;
    while let Some(letter) = lexer.letters.get(at) {
        at = if letter == ' ' { at + 1 } else { lexer.token(at, letter)? };
    }
    Some(lexer)
}

impl Lexer<'_> {
    /// Takes what stands at a place, and answers where it ends.
    fn token(&mut self, at: usize, letter: char) -> Option<usize> {
        match letter {
            '"' => self.quoted(at),
            '(' => self.brackets(at),
            ')' if self.in_brackets => {
                self.in_brackets = false;
                Some(at + 1)
            }
            '[' => self.marks(at),
            '0'..='9' => numbers::token(self, at),
            'o' if numbers::is_clock_with_letters(&self.letters, at) => numbers::token(self, at),
            _ if letter.is_alphabetic() => self.word(at),
            _ if is_other_quote(letter) => self.quoted(at),
            _ => self.sign(at, letter),
        }
    }

    pub fn push(&mut self, what: What, from: usize, to: usize, because: Option<String>) -> Option<usize> {
        let is_apart = from == 0 || self.letters.get(from - 1) == Some(' ');
        self.tokens.push(Token { what, range: self.letters.range(from, to), is_apart, because });
        Some(to)
    }

    fn sign(&mut self, at: usize, sign: char) -> Option<usize> {
        let follows_word = self.tokens.last().map_or(false, |token| token.range.end == self.letters.place(at));
        match sign {
            '+' | '-' => match self.offset(at, sign) {
                Some(end) => Some(end),
                None => {
                    let again = self.letters.all[at..].iter().take_while(|other| **other == '-').count();
                    self.push(What::Sign(sign), at, at + again.max(1), self.odd_dash(at))
                }
            },
            '&' => self.push(What::Name(lexicon::AND), at, at + 1, None),
            '|' if self.letters.get(at + 1) == Some('|') => self.push(What::Sign('|'), at, at + 2, None),
            ':' if self.is_digit(at.wrapping_sub(1)) && self.is_digit(at + 1) => None, // a time that is none
            ',' | ';' | ':' | '/' => self.push(What::Sign(sign), at, at + 1, None),
            '.' | '!' if follows_word => Some(at + 1), // the end of a short form, or of a sentence
            _ => None,
        }
    }

    fn is_digit(&self, at: usize) -> bool {
        self.letters.get(at).map_or(false, |letter| letter.is_ascii_digit())
    }

    fn odd_dash(&self, at: usize) -> Option<String> {
        let (_, character) = characters(&self.letters.text[self.letters.place(at)..]).next()?;
        (character != Character::Letter('-') && character != Character::Letter('+'))
            .then(|| format!("{} is written `-`", named(character)))
    }

    /// `+1 day`, `+ 1 Tag`
    fn offset(&mut self, at: usize, sign: char) -> Option<usize> {
        let (count, _, after) = self.letters.number(self.letters.after_blanks(at + 1), 5)?;
        let word = self.letters.after_blanks(after);
        let length =
            lexicon::DAY_UNITS.iter().filter_map(|unit| lexicon::begins_with(self.letters.all.get(word..)?, unit)).max()?;
        let written: String = self.letters.all[word..word + length].iter().collect();
        let unit = match written.as_str() {
            formal @ ("day" | "days") => formal,
            _ if count == 1 => "day",
            _ => "days",
        };
        self.push(What::Offset(format!(" {sign}{count} {unit}")), at, word + length, None)
    }

    fn marks(&mut self, at: usize) -> Option<usize> {
        let end = at + self.letters.all[at..].iter().position(|letter| *letter == ']')? + 1;
        let marks: String = self.letters.all[at..end].iter().filter(|letter| **letter != ' ').collect();
        marks.chars().all(|letter| letter.is_ascii_digit() || "[],-".contains(letter)).then_some(())?;
        self.push(What::Marks(marks), at, end, None)
    }

    /// A note between quotes of any kind; up to the end of the text if it is never closed and can end nowhere else.
    fn quoted(&mut self, at: usize) -> Option<usize> {
        let rest = &self.letters.all[at + 1..];
        let open = self.letters.get(at)?;
        let close = rest.iter().position(|letter| *letter == '"' || (open != '"' && is_other_quote(*letter)));
        let end = close.map_or(self.letters.all.len(), |length| at + 1 + length);
        let inside = self.letters.written(at + 1, end)?;
        let note = if open == '"' { inside } else { inside.trim() };
        let after = (end + 1).min(self.letters.all.len());
        match close {
            Some(_) if note.is_empty() => Some(after), // nothing stands between the quotes
            Some(_) => {
                let because = (open != '"').then(|| "a note stands between two `\"`".into());
                self.push(What::Note(note.into()), at, after, because)
            }
            // Never closed: sure only for words that can be nothing else, up to the end.
            None if open == '"' && is_note(&tokens(note.as_bytes(), self.tongue)?.tokens) => {
                self.push(What::Note(note.trim().into()), at, after, None)
            }
            None => None,
        }
    }

    /// An event with its offset; or a note in brackets; or an exception in brackets, which are then left out.
    fn brackets(&mut self, at: usize) -> Option<usize> {
        let end = at + self.letters.all[at..].iter().position(|letter| *letter == ')')?;
        let inside: String = self.letters.all[at + 1..end].iter().collect();
        let event: String = inside.chars().filter(|letter| *letter != ' ').collect();
        if is_event_with_offset(&event) {
            return self.push(What::Event(format!("({event})")), at, end + 1, None);
        }
        let tokens = tokens(inside.as_bytes(), self.tongue)?.tokens;
        if tokens.first().and_then(Token::name) == Some(EXCEPT) {
            self.in_brackets = true;
            return Some(at + 1);
        }
        let note = self.letters.written(at + 1, end)?.trim();
        is_note(&tokens).then_some(())?;
        self.push(What::Note(note.into()), at, end + 1, Some("a note stands between two `\"`".into()))
    }

    fn word(&mut self, at: usize) -> Option<usize> {
        let rest = &self.letters.all[at..];
        let run = rest.iter().take_while(|letter| letter.is_alphabetic()).count();
        let word: String = rest[..run].iter().collect();
        let written = self.letters.written(at, at + run)?;
        let known = lexicon::longest(rest, self.tongue.language);
        match (formal(&word, written), known) {
            // The reader takes its own names whatever the language; a longer phrase goes before.
            (Some(name), known) if known.as_ref().map_or(true, |(length, _)| *length <= run) => {
                self.own += usize::from(known.map_or(false, |(_, some)| some[0].is_own));
                self.push(What::Name(name), at, at + run, None)
            }
            (_, Some((length, meanings))) => {
                let meaning = meanings[self.tongue.choice.min(meanings.len() - 1)];
                self.own += usize::from(meaning.is_own);
                match meaning.key {
                    NOTHING if self.says_nothing(at + length) => Some(at + length),
                    NOTHING => self.push(What::Unknown(written.into()), at, at + run, None),
                    key => self.push(What::Name(key), at, at + length, meant(key)),
                }
            }
            _ => {
                let end = self.hyphenated(at + run);
                self.unknown += 1;
                self.push(What::Unknown(self.letters.written(at, end)?.into()), at, end, None)
            }
        }
    }
}

impl Lexer<'_> {
    /// Whether a word that says nothing ends here: not before a number alone, since it may be a name with a slip there.
    fn says_nothing(&self, end: usize) -> bool {
        let next = self.letters.after_blanks(end);
        let after = match self.letters.number(next, 4) {
            None => return !self.is_digit(next),
            Some((.., after)) => after,
        };
        let rest = &self.letters.all[self.letters.after_blanks(after)..];
        let is_marked =
            matches!(self.letters.get(after), Some('.' | ':')) || rest.first().map_or(false, |letter| letter.is_alphabetic());
        next > end && is_marked && !STATES.iter().any(|state| lexicon::begins_with(rest, state).is_some())
    }

    /// Where a word ends that is not known and goes on after hyphens, as `rendez-vous`.
    fn hyphenated(&self, end: usize) -> usize {
        let rest = self.letters.all.get(end + 1..).unwrap_or_default();
        let run = rest.iter().take_while(|letter| letter.is_alphabetic()).count();
        let word: String = rest[..run].iter().collect();
        let is_known = lexicon::longest(rest, self.tongue.language).is_some() || formal(&word, &word).is_some();
        match self.letters.get(end) {
            Some('-' | '\'' | '\u{2019}') if run > 0 && !is_known => self.hyphenated(end + 1 + run),
            _ => end,
        }
    }
}

pub(super) fn is_quote(letter: char) -> bool {
    letter == '"' || is_other_quote(letter)
}

pub(super) fn is_other_quote(letter: char) -> bool {
    matches!(letter, '\'' | '`' | '\u{ab}' | '\u{bb}' | '\u{b4}' | '\u{2018}'..='\u{201f}' | '\u{2039}' | '\u{203a}' | '\u{ff02}')
}

/// Whether words that are not known, and nothing that has a meaning for days, stand here: so they are a note.
pub(super) fn is_note(tokens: &[Token]) -> bool {
    const SHORTEST: usize = 4; // a shorter word may be a name with a slip
                               // A season is no note: what it says holds on some days alone.
    const SEASONS: [&str; 15] = [
        "sommer",
        "winter",
        "frühling",
        "herbst",
        "summer",
        "autumn",
        "hiver",
        "printemps",
        "automne",
        "zomer",
        "herfst",
        "saison",
        "season",
        "seizoen",
        "vakantie",
    ];
    let is_long = |token: &Token| matches!(&token.what, What::Unknown(word) if word.chars().count() >= SHORTEST);
    let says_nothing_else = tokens.iter().all(|token| match &token.what {
        What::Unknown(word) => {
            let word = word.to_lowercase();
            !lexicon::is_nearly_known(&word) && !SEASONS.iter().any(|season| word.contains(season))
        }
        What::Name(name) => [lexicon::TO, lexicon::AND, lexicon::FROM, lexicon::BETWEEN].contains(name),
        _ => false,
    });
    let together: String = tokens
        .iter()
        .filter_map(|token| match &token.what {
            What::Unknown(word) => Some(word.to_lowercase()),
            _ => None,
        })
        .collect();
    tokens.iter().any(is_long) && says_nothing_else && !lexicon::is_nearly_known(&together)
}

fn is_event_with_offset(inside: &str) -> bool {
    let event = ["sunrise", "sunset", "dawn", "dusk"].iter().find_map(|event| inside.strip_prefix(event));
    let time = event.and_then(|rest| rest.strip_prefix('+').or_else(|| rest.strip_prefix('-')));
    let is_digits = |text: &str| !text.is_empty() && text.bytes().all(|byte| byte.is_ascii_digit());
    time.and_then(|time| time.split_once(':'))
        .map_or(false, |(hour, minute)| is_digits(hour) && minute.len() == 2 && is_digits(minute))
}

/// A name that the reader itself takes.
fn formal(word: &str, written: &str) -> Option<&'static str> {
    const SMALL: [&str; 5] = ["dawn", "sunrise", "sunset", "dusk", "easter"];
    let any_case = WEEKDAYS.iter().chain(&MONTHS).chain(&STATES).chain(&SMALL);
    let found = any_case.copied().find(|name| name.eq_ignore_ascii_case(word));
    found.or_else(|| ["PH", "SH", "week"].into_iter().find(|name| *name == written))
}

/// `Tu` is Tuesday
fn meant(key: &'static str) -> Option<String> {
    let number = |names: &[&str]| names.iter().position(|known| *known == key).map(|i| i as i32 + 1);
    let weekday = number(&WEEKDAYS).and_then(crate::meaning::Weekday::from_number).map(|day| day.to_string());
    let month = number(&MONTHS).and_then(crate::meaning::Month::from_number).map(|month| month.to_string());
    let full = weekday.or(month).filter(|full| full != key)?;
    Some(format!("`{key}` is {full}"))
}
