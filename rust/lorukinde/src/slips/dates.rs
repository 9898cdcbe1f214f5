//! Dates as people write them, `25.12.2020`, `2020-12-25`, `25. Dezember`, and years after the day.
use super::{signs, Hint, Spot};
use crate::expected::Last;
use crate::foreign;
use crate::meaning::{Dates, Day, Kind, Meaning};
use crate::names::MONTHS;
use crate::scan::{Scan, SHORT_DIGITS, YEAR_DIGITS};

const BECAUSE: &str = "a date is written year, month, day";

/// A date; without a month where the end of its span has one.
#[derive(Clone, Copy)]
struct Date {
    year: Option<u32>,
    month: Option<usize>,
    day: u32,
}

/// A date or a span of dates.
pub(super) fn date(spot: &Spot<'_>) -> Option<Hint> {
    // In `2020-12-25` the year has been read, and reading stops after it.
    let after_year = spot.stage.filter(|stage| stage.last == Last::Item(Kind::Years)).map(|stage| stage.item);
    let begin = Scan::new(spot.text, after_year.unwrap_or(spot.place));
    let (write, end) = if is_span(begin) { span(begin)? } else { single(begin)? };
    Some(Hint::new(spot.text, begin.until(end), write, BECAUSE))
}

/// A year after a date or a month, `Dec 25 2020`.
pub(super) fn year_after_date(spot: &Spot<'_>) -> Option<Hint> {
    let stage = spot.stage.filter(|stage| stage.last == Last::Item(Kind::MonthDays))?;
    let (year, digits, end) = Scan::new(spot.text, spot.place).number(YEAR_DIGITS)?;
    let date = std::str::from_utf8(&spot.text[stage.item..stage.done]).ok()?;
    let is_sure = digits == YEAR_DIGITS && is_in_a_year(stage.meaning?, date);
    is_sure.then(|| Hint::new(spot.text, stage.item..end.at, format!("{year} {date}"), BECAUSE))
}

/// Whether it is sure that one year is meant, and the item has none yet: not in `Dec 24-Jan 6`, nor in `Nov-Feb`.
fn is_in_a_year(meaning: Meaning, written: &str) -> bool {
    match meaning {
        Meaning::Months(months) => months.year.is_none() && months.first.number() <= months.last.number(),
        Meaning::Dates(dates) => dates.start.year.is_none() && (dates.start == dates.end || is_in_a_month(&dates, written)),
        _ => false,
    }
}

/// Whether a span ends with a bare day of the month in which it starts. An end with a month would need a year of its own.
fn is_in_a_month(dates: &Dates, written: &str) -> bool {
    let is_bare = written.rsplit('-').next().map_or(false, |end| end.starts_with(|first: char| first.is_ascii_digit()));
    match (dates.start.day, dates.end.day) {
        (Day::Fixed { month: first, .. }, Day::Fixed { month: last, .. }) => is_bare && first == last,
        _ => false,
    }
}

fn single(scan: Scan<'_>) -> Option<(String, Scan<'_>)> {
    let (date, end) = whole(scan)?;
    Some((text(date)?, end))
}

/// Whether a dash and a number follow a date, so that it may not be read without them.
fn is_span(scan: Scan<'_>) -> bool {
    let after = || signs::dash_between(whole(scan).or_else(|| day(scan))?.1);
    after().map_or(false, |(after, _)| after.letter().map_or(false, |letter| letter.is_ascii_digit()))
}

fn span(scan: Scan<'_>) -> Option<(String, Scan<'_>)> {
    let (first, after) = whole(scan).or_else(|| day(scan))?;
    let (after, _) = signs::dash_between(after)?;
    let (last, end) = whole(after)?;
    Some((joined(first, last)?, end))
}

/// A span as the rules write it, if it is sure which year each date has.
fn joined(first: Date, last: Date) -> Option<String> {
    let month = first.month.or(last.month)?;
    let rises = (month, first.day) <= (last.month?, last.day);
    if first.year.is_none() != last.year.is_none() && !rises {
        return None;
    }
    let first = Date { year: first.year.or(last.year), month: Some(month), ..first };
    let last = Date { year: last.year.or(first.year), ..last };
    if rises && (first.year, first.month) == (last.year, last.month) {
        return Some(format!("{}-{}", text(first)?, last.day));
    }
    Some(format!("{}-{}", text(first)?, text(last)?))
}

fn text(date: Date) -> Option<String> {
    let month = MONTHS.get(date.month?.checked_sub(1)?)?;
    Some(match date.year {
        Some(year) => format!("{year} {month} {}", date.day),
        None => format!("{month} {}", date.day),
    })
}

/// A date with a month.
fn whole(scan: Scan<'_>) -> Option<(Date, Scan<'_>)> {
    year_first(scan).or_else(|| dotted(scan)).or_else(|| slashed(scan)).or_else(|| named(scan))
}

/// `2020-12-25`, `2020/12/25`, `2020.12.25`
fn year_first(scan: Scan<'_>) -> Option<(Date, Scan<'_>)> {
    let (year, digits, after) = scan.number(YEAR_DIGITS)?;
    let (sign, after) = after.one(|sign| "-/.".contains(sign))?;
    let (month, _, after) = after.number(SHORT_DIGITS)?;
    let (_, after) = after.one(|other| other == sign)?;
    let (day, _, end) = after.number(SHORT_DIGITS)?;
    (digits == YEAR_DIGITS).then_some((Date { year: Some(year), month: Some(month as usize), day }, end))
}

/// `25.12.2020`, `25.12.`; without the last dot it may be a time
fn dotted(scan: Scan<'_>) -> Option<(Date, Scan<'_>)> {
    let (day, _, after) = scan.number(SHORT_DIGITS)?;
    let (month, _, after) = after.byte(b'.')?.blanks().number(SHORT_DIGITS)?;
    let after = after.byte(b'.')?;
    let (year, end) = year_here(after.blanks()).map_or((None, after), |(year, end)| (Some(year), end));
    Some((Date { year, month: Some(month as usize), day }, end))
}

/// `25/12/2020` or `12/25/2020`: sure only where one of the two can be no month
fn slashed(scan: Scan<'_>) -> Option<(Date, Scan<'_>)> {
    let (one, _, after) = scan.number(SHORT_DIGITS)?;
    let (sign, after) = after.one(|sign| "/-".contains(sign))?;
    let (two, _, after) = after.number(SHORT_DIGITS)?;
    let (_, after) = after.one(|other| other == sign)?;
    let (year, end) = year_here(after)?;
    let is_month = |number| number as usize <= MONTHS.len();
    let (day, month) = match (is_month(one), is_month(two)) {
        (false, true) => (one, two),
        (true, false) => (two, one),
        _ => return None,
    };
    Some((Date { year: Some(year), month: Some(month as usize), day }, end))
}

/// `25 Dec`, `25. Dezember 2020`, `1st May`
fn named(scan: Scan<'_>) -> Option<(Date, Scan<'_>)> {
    let (date, after) = day(scan)?;
    let (word, after) = after.blanks().word()?;
    let month = 1 + MONTHS.iter().position(|name| name.eq_ignore_ascii_case(&word) || foreign::written(&word).eq([*name]))?;
    let after = after.byte(b'.').unwrap_or(after);
    let (year, end) = year_here(after.blanks()).map_or((None, after), |(year, end)| (Some(year), end));
    Some((Date { year, month: Some(month), ..date }, end))
}

/// `25`, `25.`, `1st`
fn day(scan: Scan<'_>) -> Option<(Date, Scan<'_>)> {
    let (day, _, after) = scan.number(SHORT_DIGITS)?;
    let end = after.byte(b'.').or_else(|| Some(after.one_word(&super::words::ORDINALS)?.1)).unwrap_or(after);
    Some((Date { year: None, month: None, day }, end))
}

fn year_here(scan: Scan<'_>) -> Option<(u32, Scan<'_>)> {
    let (year, digits, end) = scan.number(YEAR_DIGITS)?;
    let is_clock = end.byte(b':').is_some();
    (digits == YEAR_DIGITS && !is_clock).then_some((year, end))
}
