//! Why a part of a sheet is refused, said with the sheet at hand: what stands there, what was expected, what to write instead.
use std::fmt;
use std::ops::Range;

use crate::empty::Empty;
use crate::expected::{expected, stage};
use crate::found::named;
use crate::hint::Hint;
use crate::manner::Manner;
use crate::place::{characters, first_character, Character};
use crate::refusal::Refusal;
use crate::spot::Spot;
use crate::{house, inverted, meant, range, slips};

/// What is wrong, and what to write instead where a common slip is seen. Its `Display` is one sentence.
#[derive(Clone, Debug, PartialEq, Eq)]
pub struct Explanation {
    /// What stands at the refusal's place, and what was expected there.
    pub wrong: String,
    pub hint: Option<Hint>,
    /// Where what is wrong stands.
    pub place: usize,
    /// Whether edition 2 of the rules accepts the part, where it was read by edition 1.
    pub in_edition_2: bool,
}

impl fmt::Display for Explanation {
    fn fmt(&self, f: &mut fmt::Formatter<'_>) -> fmt::Result {
        write!(f, "{}", self.wrong)?;
        if let Some(hint) = &self.hint {
            write!(f, "; {hint}")?;
        }
        if self.in_edition_2 {
            write!(f, "; edition 2 of the rules takes it")?;
        }
        Ok(())
    }
}

/// Explains why a part of a sheet, which is given by its range, is refused in a manner; for a sheet that was read as a whole, its
/// part is all of it. With what the hint says the part is accepted, or refused later.
pub fn explain(manner: Manner, sheet: &[u8], part: Range<usize>, refusal: &Refusal) -> Explanation {
    let spot = match spot(manner, sheet, &part, refusal) {
        Some(spot) => spot,
        None => return without_sheet(refusal),
    };
    let hint = match refusal.number {
        Refusal::EMPTY_RULE => Empty::at(sheet, refusal.place).hint(sheet),
        _ => slips::hint(manner, &spot, part.start),
    };
    explained(manner, &spot, wrong(sheet, refusal, &spot), hint, refusal.place)
}

/// Explains as [`explain`] does, with a hint that is a whole repair, or none: with what it says the part is accepted, and says every
/// word, number and sign that stood there. What is wrong is the number or the time itself, where the refusal's place is its item's.
pub fn explain_meant(manner: Manner, sheet: &[u8], part: Range<usize>, refusal: &Refusal) -> Explanation {
    let spot = match spot(manner, sheet, &part, refusal) {
        Some(spot) => spot,
        None => return without_sheet(refusal),
    };
    let hint = match refusal.number {
        Refusal::EMPTY_RULE => Empty::at(sheet, refusal.place).hint_of_what_is_meant(manner, sheet),
        Refusal::WEEKS_INVERTED => inverted::hint(manner, sheet, part.clone(), refusal.place),
        _ => meant::hint(manner, sheet, part.clone()),
    };
    let place = wrong_place(&spot);
    let wrong = match refusal.number {
        Refusal::POINT_IN_TIME if place > spot.place => {
            format!("`{}` after `-` is no time: expected hours and minutes (`10:00-12:00`)", word(&spot.text[place..]))
        }
        _ => wrong(sheet, refusal, &spot),
    };
    explained(manner, &spot, wrong, hint, part.start + place)
}

/// What stands at the refusal's place; None if the refusal says nothing of the part.
fn spot<'a>(manner: Manner, sheet: &'a [u8], part: &Range<usize>, refusal: &Refusal) -> Option<Spot<'a>> {
    let is_of_part = refusal.number != Refusal::TOO_LONG && (part.start..=part.end).contains(&refusal.place);
    if !is_of_part || part.end > sheet.len() {
        return None;
    }
    let (text, place) = (&sheet[part.clone()], refusal.place - part.start);
    Some(Spot { text, number: refusal.number, place, stage: stage(manner, text, place) })
}

fn without_sheet(refusal: &Refusal) -> Explanation {
    Explanation { wrong: refusal.to_string(), hint: None, place: refusal.place, in_edition_2: false }
}

fn explained(manner: Manner, spot: &Spot<'_>, wrong: String, hint: Option<Hint>, place: usize) -> Explanation {
    let in_edition_2 = hint.is_none() && manner == Manner::Edition1 && meant::accepts(Manner::Edition2, spot.text);
    Explanation { wrong, hint, place, in_edition_2 }
}

/// Where in a text what is wrong stands.
fn wrong_place(spot: &Spot<'_>) -> usize {
    let after_dash = || {
        let time = spot.text[spot.place..].iter().take_while(|byte| byte.is_ascii_alphanumeric() || **byte == b':').count();
        let end = spot.place + time;
        let is_there = spot.text.get(end + 1).map_or(false, |next| *next != b' ');
        (spot.text.get(end) == Some(&b'-') && is_there).then_some(end + 1)
    };
    match spot.number {
        Refusal::RANGE => range::number(spot).map_or(spot.place, |number| number.start),
        Refusal::POINT_IN_TIME => after_dash().unwrap_or(spot.place),
        _ => spot.place,
    }
}

fn wrong(sheet: &[u8], refusal: &Refusal, spot: &Spot<'_>) -> String {
    let here = &spot.text[spot.place..];
    match spot.number {
        Refusal::NO_SHAPE => no_shape(spot),
        Refusal::RANGE => range::wrong(spot),
        Refusal::WEEK_STEP => format!("the weeks `{}` go in steps of more than 255", word(here)),
        Refusal::YEARS_INVERTED => format!("the years `{}` run backwards: the first is after the last", word(here)),
        Refusal::WEEKS_INVERTED => format!("the weeks `{}` run backwards: the first is after the last", word(here)),
        Refusal::POINT_IN_TIME => "a time alone: expected from when to when (`10:00-12:00`), or an open end (`10:00+`)".into(),
        Refusal::EASTER_DAY => "a day without a month ends a span from easter: expected a date (`easter-Apr 5`)".into(),
        Refusal::EMPTY_RULE => Empty::at(sheet, refusal.place).to_string(),
        Refusal::BROKEN_QUOTE if here.starts_with(b"\"\"") => {
            "nothing stands between the two quotes: expected a note there".into()
        }
        Refusal::BROKEN_QUOTE => "the quote is never closed: expected another one after the note".into(),
        Refusal::ILL_FORMED_COMMENT => ill_formed(here),
        Refusal::HOUSE_FORM | Refusal::HOUSE_ORDER => house::wrong(spot),
        _ => refusal.to_string(),
    }
}

fn no_shape(spot: &Spot<'_>) -> String {
    let found = match first_character(&spot.text[spot.place..]) {
        Some(character) => format!("{} does not fit here", named(character)),
        None => "the rule ends too early".into(),
    };
    match spot.stage {
        Some(stage) => format!("{found}: expected {}", expected(&stage, spot.text, spot.place)),
        None => found,
    }
}

/// What stands up to the next blank, comma or semicolon.
fn word(text: &[u8]) -> String {
    let length = text.iter().take_while(|byte| !b" ,;".contains(byte)).count();
    String::from_utf8_lossy(&text[..length]).into_owned()
}

/// A note that is not UTF-8. What its first such byte is in the older code of western Europe may tell where the text comes from.
fn ill_formed(note: &[u8]) -> String {
    let byte = characters(note).find_map(|(_, character)| match character {
        Character::IllFormed(byte) => Some(byte),
        Character::Letter(_) => None,
    });
    match byte {
        Some(byte) if char::from(byte).is_alphabetic() => format!(
            "the note is not UTF-8: its byte {byte:#04x} is no letter (in ISO 8859-1 it is `{}`); save the sheet as UTF-8",
            char::from(byte)
        ),
        Some(byte) => format!("the note is not UTF-8: its byte {byte:#04x} is no letter"),
        None => "the note is not UTF-8".into(),
    }
}
