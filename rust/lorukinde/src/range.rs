//! Which number of an item is out of range, and what its range is.
use std::ops::Range;

use crate::expected::Last;
use crate::manner::Manner;
use crate::meaning::Kind;
use crate::names::MONTHS;
use crate::read_sheet_in;
use crate::record::Record;
use crate::refusal::Refusal;
use crate::scan::{Scan, YEAR_DIGITS};
use crate::spot::Spot;

/// What is wrong with the item at the place.
pub(crate) fn wrong(spot: &Spot<'_>) -> String {
    match number(spot) {
        Some(range) => {
            let shown = String::from_utf8_lossy(&spot.text[range.clone()]);
            format!("`{shown}` is out of range: {}", limits(spot, &range))
        }
        None => "a number of this item is out of range".into(),
    }
}

/// The first number with which the item is refused, if the text ends after it and the shortest end that its shape needs.
pub(crate) fn number(spot: &Spot<'_>) -> Option<Range<usize>> {
    const ENDS: [&str; 5] = ["", "]", ")", " day", " Jan 1"];
    const MOST_LOOKS: usize = 50; // each look is a reading, and a list of marks may be long
    let mut at = spot.place;
    for _ in 0..MOST_LOOKS {
        let range = next_number(spot.text, at)?;
        if ENDS.iter().any(|end| is_refused(spot, &[&spot.text[..range.end], end.as_bytes()].concat())) {
            return Some(range);
        }
        at = range.end;
    }
    None
}

/// The next digits, with the colons between them.
fn next_number(text: &[u8], from: usize) -> Option<Range<usize>> {
    let begin = from + text[from..].iter().position(u8::is_ascii_digit)?;
    let length = text[begin..].iter().take_while(|byte| byte.is_ascii_digit() || **byte == b':').count();
    Some(begin..begin + length)
}

/// Whether the item is refused for a number if the text is this.
fn is_refused(spot: &Spot<'_>, text: &[u8]) -> bool {
    let mut table = vec![Record::EMPTY; text.len()];
    // Numbers have the same ranges in both editions; in edition 2 a start that is written alone is complete.
    let refusal = read_sheet_in(Manner::Edition2, text, &mut table).err();
    refusal == Some(Refusal { number: Refusal::RANGE, place: spot.place })
}

/// What a number may be, by what stands around it.
fn limits(spot: &Spot<'_>, number: &Range<usize>) -> &'static str {
    let item = &spot.text[spot.place..];
    let before = &spot.text[spot.place..number.start];
    let is_clock = spot.text[number.clone()].contains(&b':');
    match before.last() {
        Some(b'/') if is_clock => "a repeat goes up to 23:59, its minutes up to 59",
        Some(b'/') if item.contains(&b':') => "minutes go from 00 to 59",
        Some(b'/') => "a step goes up to 32,767",
        Some(b'+' | b'-') if is_clock && before.contains(&b'(') => {
            "the time before or after an event goes up to 24:00, its minutes up to 59"
        }
        Some(b'-') if is_clock => "a time that ends a span goes up to 48:00, its minutes up to 59",
        _ if is_clock => "a time goes from 00:00 to 24:00, its minutes up to 59",
        _ if before.ends_with(b" +") || before.ends_with(b" -") => "a day offset goes up to 32,767",
        _ if is_in_brackets(before) => "marks go from 1 to 5",
        _ if is_of_weeks(spot) => "weeks go from 1 to 53",
        _ if is_year(spot, number) => "years go from 1900 to 9999",
        _ => "days go from 1 to 31",
    }
}

fn is_in_brackets(before: &[u8]) -> bool {
    let last = |bracket| before.iter().rposition(|byte| *byte == bracket);
    last(b'[') > last(b']')
}

fn is_of_weeks(spot: &Spot<'_>) -> bool {
    spot.stage.map_or(false, |stage| matches!(stage.last, Last::Week | Last::Comma(Kind::Weeks)))
}

/// Whether a number of four digits is a year: the first of its item, after the `-` of a year, or before a month or `easter`.
fn is_year(spot: &Spot<'_>, number: &Range<usize>) -> bool {
    const FIRST_YEAR: &[u8] = b"1900";
    let after_year = || Scan::new(spot.text, spot.place).number(YEAR_DIGITS)?.2.byte(b'-');
    let is_second = after_year().map_or(false, |after| after.at == number.start);
    let word = Scan::new(spot.text, number.end).blanks().word().map(|(word, _)| word).unwrap_or_default();
    let before_month = MONTHS.iter().chain(&["easter"]).any(|name| name.eq_ignore_ascii_case(&word));
    let ends_span = before_month && &spot.text[number.clone()] < FIRST_YEAR; // else it is a bare day with digits left over
    number.len() >= YEAR_DIGITS && (number.start == spot.place || is_second || ends_span)
}
