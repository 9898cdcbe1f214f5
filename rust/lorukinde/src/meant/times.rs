//! Times, from when to when.
use super::lexicon::{BETWEEN, FROM, MIDNIGHT, NOON};
use super::pieces::Tokens;
use super::tokens::What;
use crate::manner::Manner;

const HOUR: u32 = 60;
const HALF_DAY: u32 = 12 * HOUR;
const DAY: u32 = 24 * HOUR;
/// Before this no bath opens.
const EARLY: u32 = 6 * HOUR;

/// One end of a span.
struct End {
    text: String,
    /// Minutes since midnight, if it is a clock time.
    minutes: Option<u32>,
    has_half: bool,
    /// A number alone, which says a time only beside another.
    is_bare: bool,
    /// Of a number, how many digits it has.
    digits: usize,
}

/// A span; all hours of a day; in edition 2 a time alone.
pub(super) fn times(tokens: Tokens<'_>, at: usize, has_days: bool) -> Option<(String, usize)> {
    if tokens.what(at) == Some(&What::WholeDay) {
        return Some(("00:00-24:00".into(), at + 1));
    }
    let is_from = tokens.name(at) == Some(FROM);
    let at = if is_from || tokens.name(at) == Some(BETWEEN) { at + 1 } else { at };
    let start = end_of_span(tokens, at, false)?;
    if tokens.is_dash(at + 1) {
        let last = end_of_span(tokens, at + 2, true)?;
        return Some(tail(tokens, span(start, last, has_days)?, at + 3));
    }
    let is_open = is_from || (tokens.is_sign(at + 1, '+') && end_of_span(tokens, at + 2, false).is_none());
    let end = if is_from { at + 1 } else { at + 2 };
    match (is_open, start.is_bare) {
        (true, bare) if is_from || !bare => Some((format!("{}+", start.text), end)),
        (false, false) if tokens.manner == Manner::Edition2 => Some((start.text, at + 1)),
        _ => None,
    }
}

fn end_of_span(tokens: Tokens<'_>, at: usize, is_last: bool) -> Option<End> {
    let clock = |minutes: u32| format!("{:02}:{:02}", minutes / HOUR, minutes % HOUR);
    let name = |name: &str| End { text: name.into(), minutes: None, has_half: false, is_bare: false, digits: 0 };
    let number = |minutes: u32, digits: usize| End {
        text: clock(minutes),
        minutes: Some(minutes),
        has_half: false,
        is_bare: true,
        digits,
    };
    match tokens.what(at)? {
        What::Clock(some) => {
            let text = some.formal.clone().unwrap_or_else(|| clock(some.minutes));
            Some(End { text, minutes: Some(some.minutes), has_half: some.has_half, is_bare: false, digits: 0 })
        }
        What::Number(hour, digits @ 1..=2) => Some(number(hour * HOUR, *digits)),
        What::Number(value, 4) if value % 100 < HOUR => Some(number(value / 100 * HOUR + value % 100, 4)),
        What::Name(NOON) => Some(name(NOON)),
        What::Name(MIDNIGHT) => Some(name(if is_last { MIDNIGHT } else { "00:00" })),
        What::Name(event @ ("dawn" | "sunrise" | "sunset" | "dusk")) => Some(name(event)),
        What::Event(event) => Some(name(event)),
        _ => None,
    }
}

/// A span as the rules write it, if it is sure in which half of the day each end is, and that the numbers are hours.
fn span(start: End, last: End, has_days: bool) -> Option<String> {
    let (from, to) = match (start.minutes, last.minutes) {
        (Some(from), Some(to)) => (from, to),
        _ => return Some(format!("{}-{}", start.text, last.text)),
    };
    let clock = |minutes: u32| format!("{:02}:{:02}", minutes / HOUR, minutes % HOUR);
    let are_hours = from < DAY && (to <= DAY || !last.is_bare) && from != to;
    let are_bare = start.is_bare && last.is_bare;
    // `9-5` may end in the afternoon, and `2-6` be all in it.
    let may_be_halves = from <= HALF_DAY && (to < from || (are_bare && from < EARLY && to <= HALF_DAY));
    // Numbers of four digits may be years, and one beside a shorter one is no time.
    let is_long = |end: &End| end.digits == 4;
    let may_be_years = (is_long(&start) || is_long(&last)) && (!has_days || (are_bare && is_long(&start) != is_long(&last)));
    match (start.has_half, last.has_half) {
        _ if !are_hours || may_be_years => None,
        (false, false) if may_be_halves => None,
        (true, true) if to == 0 => None, // midnight may be meant as 00:00 or as 24:00
        (false, true) => Some(format!("{}-{}", clock(only(halves(from), |start| start < to)?), last.text)),
        (true, false) => Some(format!("{}-{}", start.text, clock(only(halves(to), |end| end > from)?))),
        _ => Some(format!("{}-{}", start.text, last.text)),
    }
}

/// When a time may be that does not say in which half of the day it is.
fn halves(minutes: u32) -> Vec<u32> {
    match minutes {
        0..=719 => vec![minutes, minutes + HALF_DAY],
        720..=779 => vec![minutes - HALF_DAY, minutes],
        _ => vec![minutes],
    }
}

fn only(some: Vec<u32>, fits: impl Fn(u32) -> bool) -> Option<u32> {
    let fitting: Vec<u32> = some.into_iter().filter(|minutes| fits(*minutes)).collect();
    match fitting[..] {
        [one] => Some(one),
        _ => None,
    }
}

/// An open end or a repeat after a span.
fn tail(tokens: Tokens<'_>, span: String, at: usize) -> (String, usize) {
    let is_list = end_of_span(tokens, at + 1, false).is_some() && tokens.is_dash(at + 2);
    let is_repeat = tokens.is_sign(at, '/') && !is_list;
    match tokens.what(at + 1) {
        _ if tokens.is_sign(at, '+') && end_of_span(tokens, at + 1, false).is_none() => (format!("{span}+"), at + 1),
        Some(What::Number(minutes, _)) if is_repeat && *minutes < HOUR => (format!("{span}/{minutes:02}"), at + 2),
        Some(What::Number(minutes, _)) if is_repeat && minutes % 15 == 0 && *minutes <= 3 * HOUR => {
            (format!("{span}/{}:{:02}", minutes / HOUR, minutes % HOUR), at + 2)
        }
        Some(What::Clock(clock)) if is_repeat => (format!("{span}/{}:{:02}", clock.minutes / HOUR, clock.minutes % HOUR), at + 2),
        _ => (span, at),
    }
}
