//! Times as people write them: `9-17`, `09.00-18.00`, `9am - 5pm`, `10:00 bis 12:00 Uhr`.
use super::{signs, Hint, Spot};
use crate::expected::Last;
use crate::meaning::Kind;
use crate::names::MONTHS;
use crate::scan::{Scan, SHORT_DIGITS};

/// Which half of the day a time of the twelve hour clock is in.
#[derive(Clone, Copy, PartialEq)]
enum Half {
    Morning,
    Afternoon,
}

/// What may stand after a time and is no part of it as the rules write it.
const AFTER_TIME: [(&str, Option<Half>); 9] = [
    ("a.m.", Some(Half::Morning)),
    ("p.m.", Some(Half::Afternoon)),
    ("am", Some(Half::Morning)),
    ("pm", Some(Half::Afternoon)),
    ("uhr", None),
    ("hours", None),
    ("hrs", None),
    ("h", None),
    ("o'clock", None),
];
const FROM: [&str; 6] = ["ab", "from", "dès", "des", "dalle", "vanaf"];
const NOON: u32 = 12;
const MIDNIGHT_HOUR: u32 = 24;
/// Of a time without a sign, `0930`: its digits, and by how much it grows with the hour.
const CLOCK_DIGITS: usize = 4;
const HOUR_STEP: u32 = 100;

struct Time {
    hour: u32,
    text: String,
    half: Option<Half>,
    /// What is unusual about it.
    because: Option<String>,
}

/// A span of times, or more with commas between.
pub(super) fn spans(spot: &Spot<'_>) -> Option<Hint> {
    let begin = Scan::new(spot.text, spot.place);
    let (mut write, mut end, mut because) = span(begin)?;
    while let Some((more, after, why)) = end.byte(b',').and_then(span) {
        write = format!("{write},{more}");
        end = after;
        because = because.or(why);
    }
    let at_start = spot.stage.map_or(false, |stage| stage.last == Last::Nothing);
    let is_cut = spot.text[..begin.at].last().map_or(false, u8::is_ascii_digit); // the number began before this place
    let goes_on = end.letter().map_or(false, |next| "/:.-+".contains(next)); // there is more to it than this
    if is_cut || goes_on || (at_start && may_be_dates(begin)) {
        return None;
    }
    Some(Hint::new(spot.text, begin.until(end), write, because?))
}

/// `24-7`, `24 / 7`
pub(super) fn always(spot: &Spot<'_>) -> Option<Hint> {
    let begin = Scan::new(spot.text, spot.place);
    let (hours, _, after) = begin.number(SHORT_DIGITS)?;
    let after = signs::dash_between(after).map(|(after, _)| after).or_else(|| after.blanks().byte(b'/'))?;
    let (days, _, end) = after.blanks().number(1)?;
    ((hours, days) == (24, 7)).then(|| Hint::new(spot.text, begin.until(end), "24/7", ""))
}

/// `ab 10:00`, `from 10:00 to 12:00`
pub(super) fn from_a_time_on(spot: &Spot<'_>) -> Option<Hint> {
    let begin = Scan::new(spot.text, spot.place);
    let (word, after) = begin.one_word(&FROM)?;
    let (start, end) = time(after.blanks())?;
    if signs::dash_between(end).is_some() {
        let (write, end, _) = span(after.blanks())?;
        return Some(Hint::new(spot.text, begin.until(end), write, ""));
    }
    Some(Hint::new(spot.text, begin.until(end), format!("{}+", start.text), format!("`+` says `{word}`")))
}

/// `10:00-12:00/5`
pub(super) fn repeat(spot: &Spot<'_>) -> Option<Hint> {
    spot.stage.filter(|stage| stage.last == Last::Item(Kind::Times))?;
    let begin = Scan::new(spot.text, spot.place);
    let (minutes, _, end) = begin.byte(b'/')?.number(1)?;
    Some(Hint::new(spot.text, begin.until(end), format!("/{minutes:02}"), "minutes have two digits"))
}

/// `10.12-14.12` is times, or a day and a month.
fn may_be_dates(scan: Scan<'_>) -> bool {
    let month = || scan.number(SHORT_DIGITS)?.2.byte(b'.')?.number(SHORT_DIGITS);
    month().map_or(false, |(month, _, _)| (1..=MONTHS.len()).contains(&(month as usize)))
}

fn span(scan: Scan<'_>) -> Option<(String, Scan<'_>, Option<String>)> {
    let (start, after) = time(scan)?;
    let (after, dash) = signs::dash_between(after)?;
    let (end, after) = time(after)?;
    // Where only one side says it, `1-5pm` may begin in the morning or in the afternoon; and `24-26` and `10-25` are rather days.
    let sure = start.half.is_some() == end.half.is_some() && start.hour < MIDNIGHT_HOUR && end.hour <= MIDNIGHT_HOUR;
    sure.then(|| (format!("{}-{}", start.text, end.text), after, start.because.or(end.because).or(dash)))
}

/// A time as the rules write it.
fn time(scan: Scan<'_>) -> Option<(Time, Scan<'_>)> {
    let (hour, minute, after, odd) = clock(scan)?;
    let (half, after, unit) = after_time(after);
    let hour = match half {
        None => hour,
        Some(_) if hour == 0 || hour > NOON => return None,
        Some(Half::Morning) => hour % NOON,
        Some(Half::Afternoon) => hour % NOON + NOON,
    };
    Some((Time { hour, text: format!("{hour:02}:{minute:02}"), half, because: unit.or(odd) }, after))
}

/// Hours and minutes, `9`, `9:30`, `9.30`, `9h30`, `0930`, `9:30:00`, and what is unusual about them.
fn clock(scan: Scan<'_>) -> Option<(u32, u32, Scan<'_>, Option<String>)> {
    let (first, digits, after) = scan.number(CLOCK_DIGITS)?;
    match digits {
        1..=SHORT_DIGITS => Some(match minutes(after) {
            Some((':', minute, after)) => match minutes(after) {
                Some((':', 0, end)) => (first, minute, end, Some("a time has no seconds".into())),
                _ => (first, minute, after, None),
            },
            Some((sign, minute, after)) => (first, minute, after, Some(format!("`{sign}` is written `:`"))),
            None => (first, 0, after, Some("a time has hours and minutes".into())),
        }),
        CLOCK_DIGITS => Some((first / HOUR_STEP, first % HOUR_STEP, after, Some("`:` stands between hours and minutes".into()))),
        _ => None,
    }
}

fn minutes(scan: Scan<'_>) -> Option<(char, u32, Scan<'_>)> {
    let (sign, after) = scan.one(|sign| ":.h".contains(sign))?;
    let (minute, digits, after) = after.number(SHORT_DIGITS)?;
    (digits == SHORT_DIGITS).then_some((sign, minute, after))
}

/// What stands after a time and is left out: which half of the day it says, and why it is left out.
fn after_time(scan: Scan<'_>) -> (Option<Half>, Scan<'_>, Option<String>) {
    let begin = scan.blanks();
    let here = |known: &str| begin.rest().get(..known.len()).map_or(false, |rest| rest.eq_ignore_ascii_case(known.as_bytes()));
    let found = AFTER_TIME.iter().find_map(|(known, half)| {
        let end = Scan::new(begin.text, begin.at + known.len());
        let is_word = !end.letter().map_or(false, char::is_alphabetic);
        (here(known) && is_word).then_some((*half, end, *known))
    });
    match found {
        None => (None, scan, None),
        Some((None, end, unit)) => (None, end, Some(format!("`{unit}` is left out"))),
        Some((half, end, _)) => (half, end, Some("the clock goes from 00:00 to 24:00".into())),
    }
}

/// The words for hours that some write after a time, for the slip of one after a span that is else right.
pub(super) fn unit(scan: Scan<'_>) -> Option<Scan<'_>> {
    let (half, end, because) = after_time(scan);
    (half.is_none() && because.is_some()).then_some(end)
}
