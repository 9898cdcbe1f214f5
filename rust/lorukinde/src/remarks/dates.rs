//! Dates: which day a bare end day is, which year an end has, and days that there are not.
use super::{Remark, Seen};
use crate::hint::Hint;
use crate::meaning::{Date, Dates, Day, Meaning, Month};
use crate::words::ordinal;

pub(super) fn remarks(sheet: &[u8], rule: &Seen<'_>) -> Vec<Remark> {
    let mut all = Vec::new();
    for (i, item) in rule.items.iter().enumerate() {
        if let Meaning::Dates(dates) = &item.meaning {
            let range = item.place..item.place + length(rule.item(i));
            let found = no_such_day(item.place, dates)
                .or_else(|| backwards(item.place, dates))
                .or_else(|| bare_day(sheet, range.clone(), dates))
                .or_else(|| year_on_one_end(sheet, range, dates));
            all.extend(found);
        }
    }
    all
}

/// How long a span of fixed dates is, of what stands from its first byte on: `[YYYY ]Mon D-[[YYYY ]Mon ]D`.
fn length(item: &[u8]) -> usize {
    let run = |from: usize, wanted: fn(&u8) -> bool| item[from..].iter().take_while(|byte| wanted(byte)).count();
    let is_blank = |byte: &u8| *byte == b' ';
    let date = |mut at: usize| {
        at += run(at, u8::is_ascii_digit); // a year, or a bare day
        let month = at + run(at, is_blank);
        let after = month + run(month, u8::is_ascii_alphabetic);
        let day = after + run(after, is_blank);
        let end = day + run(day, u8::is_ascii_digit);
        if after > month && end > day {
            end
        } else {
            at
        }
    };
    let first = date(0);
    if item.get(first) == Some(&b'-') {
        date(first + 1)
    } else {
        first
    }
}

/// The number of a month's last day; February's without a year is 29.
fn last_day(year: Option<i32>, month: Month) -> i32 {
    let is_leap = |year: i32| year % 4 == 0 && (year % 100 != 0 || year % 400 == 0);
    match month {
        Month::February if year.map_or(true, is_leap) => 29,
        Month::February => 28,
        Month::April | Month::June | Month::September | Month::November => 30,
        _ => 31,
    }
}

/// `Feb 30`
fn no_such_day(place: usize, dates: &Dates) -> Option<Remark> {
    [dates.start, dates.end].iter().find_map(|date| match date.day {
        Day::Fixed { month, day } if day > last_day(date.year, month) => {
            let in_year = date.year.map_or(String::new(), |year| format!(" {year}"));
            Some(Remark::doubt(place, format!("{month}{in_year} has no day {day}"), None))
        }
        _ => None,
    })
}

fn numbers(date: &Date) -> Option<(i32, i32, i32)> {
    match date.day {
        Day::Fixed { month, day } => Some((date.year?, month.number(), day)),
        _ => None,
    }
}

/// `2021 Jan 1-2020 Jan 1`
fn backwards(place: usize, dates: &Dates) -> Option<Remark> {
    let is_backwards = numbers(&dates.start)? > numbers(&dates.end)?;
    is_backwards.then(|| Remark::doubt(place, format!("{} comes after {}: no day is meant", dates.start, dates.end), None))
}

/// `2020 Dec 25-05`: a bare day that lies in a later month
fn bare_day(sheet: &[u8], range: std::ops::Range<usize>, dates: &Dates) -> Option<Remark> {
    let (first, last, day) = match (dates.start.day, dates.end.day) {
        (Day::Fixed { month: first, .. }, Day::Fixed { month: last, day }) => (first, last, day),
        _ => return None,
    };
    let end = bare_end(&sheet[range.clone()], dates.start.year.is_some())?;
    (first != last).then_some(())?;
    let in_year = |year: Option<i32>| year.map_or(String::new(), |year| format!("{year} "));
    let nth = ordinal(day);
    let of = dates.end.year.map_or(String::new(), |year| format!(" {year}"));
    let sentence = format!(
        "the {nth} is in {last}{of}: the first {nth} that does not come before {}",
        Date { day_offset: 0, to_weekday: None, ..dates.start }
    );
    let write = format!("{}{} {day}", in_year(dates.end.year), last.name());
    let can_be_written = dates.end.year.map_or(true, |year| year < 10000);
    let hint = can_be_written.then(|| Hint::new(sheet, range.start + end.start..range.start + end.end, write));
    Some(Remark::new(range.start + end.start, sentence, hint))
}

/// Where the bare day stands with which a date item ends: `[YYYY ]Mon D-D`.
fn bare_end(item: &[u8], has_year: bool) -> Option<std::ops::Range<usize>> {
    let mut words = item.split(|byte| *byte == b' ').filter(|word| !word.is_empty()).skip(if has_year { 2 } else { 1 });
    let days = words.next()?;
    let (dash, _) = days.iter().enumerate().find(|(_, byte)| **byte == b'-')?;
    let digits = days[dash + 1..].iter().take_while(|byte| byte.is_ascii_digit()).count();
    let begin = days.as_ptr() as usize - item.as_ptr() as usize + dash + 1;
    (1..=2).contains(&digits).then_some(begin..begin + digits)
}

/// `2020 Dec 25-Jan 5`
fn year_on_one_end(sheet: &[u8], range: std::ops::Range<usize>, dates: &Dates) -> Option<Remark> {
    let (start, end) = (dates.start, dates.end);
    let day = |date: &Date| match date.day {
        Day::Fixed { month, day } => Some((month.number(), day)),
        _ => None,
    };
    let rises = day(&start)? <= day(&end)?;
    let (whole, sentence) = match (start.year, end.year) {
        (Some(year), None) => {
            let year = if rises { year } else { year + 1 };
            (
                Dates { start, end: Date { year: Some(year), ..end } },
                format!("{end} has no year, though the start has one: taken for {year}"),
            )
        }
        (None, Some(year)) => {
            let year = if rises { year } else { year - 1 };
            (
                Dates { start: Date { year: Some(year), ..start }, end },
                format!("{start} has no year, though the end has one: taken for {year}"),
            )
        }
        _ => return None,
    };
    let has_offset = [start, end].iter().any(|date| date.day_offset != 0 || date.to_weekday.is_some());
    let hint = (!has_offset).then(|| Hint::new(sheet, range.clone(), sheet_text(&whole)));
    Some(Remark::new(range.start, sentence, hint))
}

/// A span of fixed dates with years, as the sheet rules write it.
fn sheet_text(dates: &Dates) -> String {
    let text = |date: &Date| match (date.year, date.day) {
        (Some(year), Day::Fixed { month, day }) => format!("{year} {} {day}", month.name()),
        _ => String::new(),
    };
    format!("{}-{}", text(&dates.start), text(&dates.end))
}
