//! Why a sheet, or a part of it, is refused.
use std::error::Error;
use std::fmt;

use crate::place::Position;

/// A refusal: its number, and its place as bytes from the start of the sheet. For 4 to 9, 22 and 23 that is the first byte of the
/// item at fault (its year's, if it has one; a week's number's; for a separator of 22, where its rule begins), for 3 and 12 how far
/// its rule could be read, for 11 where the empty rule begins (after the blanks before it), for 13 the first quote of the comment,
/// for 10 where the sheet or the part begins, for 1, 2, 14 to 16 and 19 it is 0.
///
/// Its `Display` says in plain words what is wrong, without the sheet; [`explain`](crate::explain) says it with the sheet at hand.
#[derive(Clone, Copy, Debug, PartialEq, Eq, Hash)]
pub struct Refusal {
    pub number: u32,
    pub place: usize,
}

impl Refusal {
    pub const TOO_LONG: u32 = 1;
    pub const NO_PART: u32 = 2;
    pub const NO_SHAPE: u32 = 3;
    pub const RANGE: u32 = 4;
    pub const WEEK_STEP: u32 = 5;
    pub const YEARS_INVERTED: u32 = 6;
    pub const WEEKS_INVERTED: u32 = 7;
    pub const POINT_IN_TIME: u32 = 8;
    pub const EASTER_DAY: u32 = 9;
    pub const NO_ROOM: u32 = 10;
    pub const EMPTY_RULE: u32 = 11;
    pub const BROKEN_QUOTE: u32 = 12;
    pub const ILL_FORMED_COMMENT: u32 = 13;
    pub const NO_ANSWER_ROOM: u32 = 14;
    pub const COUNT_FULL: u32 = 15;
    pub const NO_FIT: u32 = 16;
    pub const UNKNOWN_EDITION: u32 = 19;
    pub const HOUSE_FORM: u32 = 22;
    pub const HOUSE_ORDER: u32 = 23;

    /// The place as people count it, by line and character, in the sheet that was read.
    pub fn position(&self, sheet: &[u8]) -> Position {
        Position::of(sheet, self.place)
    }
}

/// Where something stands, so that nobody has to ask whether bytes are counted from 0 or from 1.
struct At(usize);

impl fmt::Display for At {
    fn fmt(&self, f: &mut fmt::Formatter<'_>) -> fmt::Result {
        match self.0 {
            0 => write!(f, "at the start of the sheet"),
            1 => write!(f, "1 byte into the sheet"),
            n => write!(f, "{n} bytes into the sheet"),
        }
    }
}

impl fmt::Display for Refusal {
    fn fmt(&self, f: &mut fmt::Formatter<'_>) -> fmt::Result {
        let at = At(self.place);
        match self.number {
            Refusal::TOO_LONG => write!(f, "the sheet is longer than 4,096 bytes"),
            Refusal::NO_PART => write!(f, "no part of the sheet begins at the place that was asked for"),
            Refusal::NO_SHAPE => write!(f, "{at} something is missing, misspelled or out of order"),
            Refusal::RANGE => {
                write!(
                    f,
                    "a number in the item {at} is outside what is allowed there, as a day 32, a week 54 or a minute 60 would be"
                )
            }
            Refusal::WEEK_STEP => write!(f, "the weeks in the item {at} go in steps of more than 255"),
            Refusal::YEARS_INVERTED => write!(f, "the years in the item {at} run backwards: the first year is after the last"),
            Refusal::WEEKS_INVERTED => write!(f, "the weeks in the item {at} run backwards: the first week is after the last"),
            Refusal::POINT_IN_TIME => {
                write!(f, "the item {at} is a single time, where it should say from when to when (10:00-12:00, or 10:00+)")
            }
            Refusal::EASTER_DAY => {
                write!(f, "the item {at} ends a span from easter with a day but no month (write easter-Apr 5, not easter-5)")
            }
            Refusal::NO_ROOM => write!(f, "everything can be read, but it has more records than there is room for in the table"),
            Refusal::EMPTY_RULE => write!(f, "the rule {at} is empty"),
            Refusal::BROKEN_QUOTE => write!(f, "the quote {at} opens no comment: it is never closed, or nothing stands inside"),
            Refusal::ILL_FORMED_COMMENT => {
                write!(f, "the comment {at} has bytes that are no letters (it is not well-formed UTF-8)")
            }
            Refusal::NO_ANSWER_ROOM => write!(f, "the feed has more lines than there is room for answers"),
            Refusal::COUNT_FULL => write!(f, "a count of the tally would pass 4,294,967,295"),
            Refusal::NO_FIT => write!(f, "the answer and its records do not fit: no reading of a sheet answers so"),
            Refusal::UNKNOWN_EDITION => write!(f, "there is no such edition of the sheet rules"),
            Refusal::HOUSE_FORM => write!(
                f,
                "what stands {at} is not allowed in house sheets: rules are parted by ; alone, and times are from when to when, \
                 by the clock and up to 24:00"
            ),
            Refusal::HOUSE_ORDER => {
                write!(f, "the span {at} ends not after its start, or starts before an earlier one of its rule ends")
            }
            other => write!(f, "what stands {at} is refused with the number {other}, which this version has no words for"),
        }
    }
}

impl Error for Refusal {}
