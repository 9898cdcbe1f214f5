//! What the Rust makes of each sheet of a file, one a line, in the record words of the rules.
//!
//!     oracle [FILE]               one line a sheet, fields parted by tabs: `ok`, warnings, records; or `refused` and the error
//!     oracle bench FILE ROUNDS    parses each sheet ROUNDS times and prints how many were accepted
//!
//! The Rust keeps comments as strings, so a head has the comment in quotes in the place of its start and length.
use std::cell::Cell;
use std::io::{Read, Write};
use std::panic::{AssertUnwindSafe, catch_unwind};

use opening_hours_syntax::rules::day::{Date, DateOffset, HolidayKind, MonthdayRange, WeekDayOffset, WeekDayRange, Weekday};
use opening_hours_syntax::rules::time::{Time, TimeEvent, TimeSpan};
use opening_hours_syntax::rules::{OpeningHoursExpression, RuleKind, RuleOperator, RuleSequence};
use opening_hours_syntax::{Error, Parser, parse};

fn wday(day: Weekday) -> i32 {
    day.number_from_monday() as i32
}

fn flags(nth: &[bool; 5]) -> i32 {
    nth.iter().enumerate().map(|(i, set)| i32::from(*set) << i).sum()
}

/// form, year, month, day or weekday, n, weekday offset, day offset
fn date((date, offset): &(Date, DateOffset)) -> [i32; 7] {
    let year = date.year().map_or(0, |y| *y);
    let [form, month, day, n] = match *date {
        Date::Fixed { month, day, .. } => [1, month as i32, day.into(), 0],
        Date::Weekday { month, wday: day, nth, .. } => [2, month as i32, wday(day), nth.into()],
        Date::Easter { .. } => [3, 0, 0, 0],
    };
    let wday_offset = match offset.wday_offset {
        WeekDayOffset::None => 0,
        WeekDayOffset::Next(day) => wday(day),
        WeekDayOffset::Prev(day) => -wday(day),
    };
    [form, year, month, day, n, wday_offset, offset.day_offset.into()]
}

fn monthday(range: &MonthdayRange) -> Vec<i32> {
    match range {
        MonthdayRange::Month { range, year } => vec![3, year.map_or(0, |y| *y), *range.start() as i32, *range.end() as i32],
        MonthdayRange::Date { start, end } => [vec![4], date(start).to_vec(), date(end).to_vec()].concat(),
    }
}

fn weekday(range: &WeekDayRange) -> Vec<i32> {
    match range {
        WeekDayRange::Fixed { range, offset, nth_from_start, nth_from_end } => {
            vec![6, wday(*range.start()), wday(*range.end()), (*offset).into(), flags(nth_from_start), flags(nth_from_end)]
        }
        WeekDayRange::Holiday { kind: HolidayKind::Public, offset } => vec![7, 1, (*offset).into()],
        WeekDayRange::Holiday { kind: HolidayKind::School, offset } => vec![7, 2, (*offset).into()],
    }
}

fn time(time: &Time) -> [i32; 2] {
    match time {
        Time::Fixed(time) => [0, time.mins_from_midnight().into()],
        Time::Variable(time) => {
            let event = match time.event {
                TimeEvent::Dawn => 1,
                TimeEvent::Sunrise => 2,
                TimeEvent::Sunset => 3,
                TimeEvent::Dusk => 4,
            };
            [event, time.offset.into()]
        }
    }
}

fn span(span: &TimeSpan) -> Vec<i32> {
    let repeats = span.repeats.map_or(-1, |d| d.num_minutes() as i32);
    [vec![8], time(&span.range.start).to_vec(), time(&span.range.end).to_vec(), vec![repeats, span.open_end.into()]].concat()
}

fn items(rule: &RuleSequence) -> Vec<Vec<i32>> {
    let day = &rule.day_selector;
    let mut items = Vec::new();
    for (range, step) in day.year.iter().map(|y| y.into_parts()) {
        items.push(vec![2, **range.start(), **range.end(), step.into()]);
    }
    items.extend(day.monthday.iter().map(monthday));
    for (range, step) in day.week.iter().map(|w| w.into_parts()) {
        items.push(vec![5, (**range.start()).into(), (**range.end()).into(), step.into()]);
    }
    items.extend(day.weekday.iter().map(weekday));
    items.extend(rule.time_selector.spans.iter().map(span));
    items
}

fn write_records(expression: &OpeningHoursExpression, out: &mut String) {
    use std::fmt::Write;
    for rule in &expression.rules {
        let separator = match rule.operator {
            RuleOperator::Normal => 0,
            RuleOperator::Additional => 1,
            RuleOperator::Fallback => 2,
        };
        let state = match rule.kind {
            RuleKind::Open => 0,
            RuleKind::Closed => 1,
            RuleKind::Unknown => 2,
        };
        let items = items(rule);
        let _ = write!(out, "\t1 {separator} {state} \"{}\" {}{}", rule.comment, items.len(), " 0".repeat(10));
        for item in items {
            let _ = write!(out, "\t{}{}", item.iter().map(i32::to_string).collect::<Vec<_>>().join(" "), " 0".repeat(16 - item.len()));
        }
    }
}

fn kind(error: &Error) -> String {
    match error {
        Error::Syntax(_) => "Syntax".to_string(), // its text runs over several lines
        other => format!("{other:?}"),
    }
}

/// the answer for one sheet
fn answer(sheet: &[u8]) -> String {
    let text = match std::str::from_utf8(sheet) {
        Ok(text) => text,
        Err(_) => return "refused\tnot UTF-8".to_string(),
    };
    let warnings = Cell::new(0);
    let parsed = catch_unwind(AssertUnwindSafe(|| {
        Parser::default().with_warning_handler(|_| warnings.set(warnings.get() + 1)).parse(text)
    }));
    match parsed {
        Ok(Ok(expression)) => {
            let mut out = format!("ok\t{}", warnings.get());
            write_records(&expression, &mut out);
            out
        }
        Ok(Err(error)) => format!("refused\t{}", kind(&error)),
        Err(_) => "refused\tpanic".to_string(),
    }
}

fn read(path: Option<&str>) -> Vec<u8> {
    let mut bytes = Vec::new();
    match path {
        Some(path) => bytes = std::fs::read(path).expect("cannot read the file"),
        None => drop(std::io::stdin().read_to_end(&mut bytes).expect("cannot read standard input")),
    }
    bytes
}

/// lines end in a newline; the last may lack it
fn sheets(bytes: &[u8]) -> impl Iterator<Item = &[u8]> {
    bytes.split_inclusive(|b| *b == b'\n').map(|line| line.strip_suffix(b"\n").unwrap_or(line))
}

fn bench(path: &str, rounds: usize) {
    let bytes = read(Some(path));
    let texts: Vec<&str> = sheets(&bytes).map(|sheet| std::str::from_utf8(sheet).expect("not UTF-8")).collect();
    let accepted = |_| texts.iter().filter(|text| parse(text).is_ok()).count();
    println!("{}", (0..rounds).map(accepted).sum::<usize>());
}

fn answers(path: Option<&str>) {
    std::panic::set_hook(Box::new(|_| {})); // a panic is an answer here
    let bytes = read(path);
    let mut out = std::io::BufWriter::new(std::io::stdout().lock());
    for sheet in sheets(&bytes) {
        writeln!(out, "{}", answer(sheet)).expect("cannot write");
    }
}

fn main() {
    let args: Vec<String> = std::env::args().skip(1).collect();
    match &args[..] {
        [mode, path, rounds] if mode == "bench" => bench(path, rounds.parse().expect("ROUNDS is a number")),
        _ => answers(args.first().map(String::as_str)),
    }
}
