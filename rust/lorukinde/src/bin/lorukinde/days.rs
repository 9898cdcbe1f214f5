//! `lorukinde days`: each rule on each day, as CSV (RFC 4180) or as JSON, one object a rule.
use std::io::Write;
use std::ops::Range;
use std::os::unix::ffi::OsStrExt;

use lorukinde::{explain_meant, Reading, Record, RecordedDay, Refusal, Rule, Touch};

use crate::json::Writer;
use crate::sheet::{Found, Sheet};

/// The head line of the CSV.
pub const COLUMNS: [&str; 8] = ["file", "line", "part", "rule", "state", "note", "date", "answer"];

/// What stands for the state of a part that was refused.
const REFUSED: &str = "refused";

/// What is asked for: the days, the answers that are wanted, and whether as JSON.
pub struct Days {
    pub days: Vec<RecordedDay>,
    pub only: Vec<Touch>,
    pub json: bool,
}

/// All days from one to another, both with them. Which there are is asked of the library.
pub fn days_between(from: RecordedDay, to: RecordedDay) -> Vec<RecordedDay> {
    let ([first, ..], [last, ..]) = (from.numbers(), to.numbers());
    let months = (first..=last).flat_map(|year| (1..=12).map(move |month| (year, month)));
    let days = months.flat_map(|(year, month)| (1..=31).map(move |day| RecordedDay::new(year, month, day)));
    days.filter(|day| (from.numbers()..=to.numbers()).contains(&day.numbers()) && day.is_known()).collect()
}

/// The head line, where there is one.
pub fn begin(asked: &Days, out: &mut Vec<u8>) {
    if !asked.json {
        row(out, &COLUMNS.map(|name| name.as_bytes().to_vec()));
    }
}

pub fn days(asked: &Days, sheet: &Sheet<'_>, table: &mut [Record], out: &mut Vec<u8>) -> Found {
    let mut part = 0;
    sheet.each_part(table, |range, reading, _| {
        part += 1;
        match reading {
            Ok(reading) => accepted(asked, sheet, part, &reading, out),
            Err(refusal) => refused(asked, sheet, part, range, &refusal, out),
        }
    })
}

fn accepted(asked: &Days, sheet: &Sheet<'_>, part: usize, reading: &Reading<'_>, out: &mut Vec<u8>) {
    for (number, rule) in reading.rules().enumerate() {
        // A reading's rules fit, and the days are known.
        let answers = rule.days(&asked.days).unwrap_or_default();
        let wanted = asked.days.iter().zip(answers).filter(|(_, answer)| asked.only.contains(answer));
        if asked.json {
            rule_object(sheet, part, number + 1, &rule, wanted, out);
            continue;
        }
        for (day, answer) in wanted {
            let mut cells = place_cells(sheet, part);
            cells.push((number + 1).to_string().into_bytes());
            cells.push(rule.head.state.to_string().into_bytes());
            cells.push(rule.comment().unwrap_or_default().to_vec());
            cells.push(day.to_string().into_bytes());
            cells.push(answer.to_string().into_bytes());
            row(out, &cells);
        }
    }
}

/// One row, or one object, that says so.
fn refused(asked: &Days, sheet: &Sheet<'_>, part: usize, range: Range<usize>, refusal: &Refusal, out: &mut Vec<u8>) {
    let column = refusal.position(sheet.text()).column;
    let said = format!(
        "refusal {} at character {column}: {}",
        refusal.number,
        explain_meant(sheet.manner, sheet.text(), range, refusal)
    );
    if asked.json {
        let mut w = Writer::new(out);
        w.object();
        place_keys(&mut w, sheet, part);
        w.key(REFUSED).text(&said);
        w.end_object();
        out.push(b'\n');
        return;
    }
    let mut cells = place_cells(sheet, part);
    cells.extend([Vec::new(), REFUSED.into(), said.into_bytes(), Vec::new(), Vec::new()]);
    row(out, &cells);
}

fn place_cells(sheet: &Sheet<'_>, part: usize) -> Vec<Vec<u8>> {
    vec![sheet.input.as_bytes().to_vec(), sheet.line.number.to_string().into_bytes(), part.to_string().into_bytes()]
}

fn place_keys(w: &mut Writer<'_>, sheet: &Sheet<'_>, part: usize) {
    w.key("file").bytes(sheet.input.as_bytes());
    w.key("line").number(sheet.line.number);
    w.key("part").number(part);
}

fn rule_object<'a>(
    sheet: &Sheet<'_>,
    part: usize,
    number: usize,
    rule: &Rule<'_>,
    days: impl Iterator<Item = (&'a RecordedDay, Touch)>,
    out: &mut Vec<u8>,
) {
    let mut w = Writer::new(out);
    w.object();
    place_keys(&mut w, sheet, part);
    w.key("rule").number(number);
    w.key("state").text(&rule.head.state.to_string());
    w.key("note");
    match rule.comment() {
        None => w.null(),
        Some(note) => w.bytes(note),
    }
    w.key("days").array();
    for (day, answer) in days {
        w.object();
        w.key("date").text(&day.to_string());
        w.key("answer").text(&answer.to_string());
        w.end_object();
    }
    w.end_array();
    w.end_object();
    out.push(b'\n');
}

/// A line of the CSV: a cell with a comma, a quote or a line's end in it stands in quotes, its own quotes doubled.
fn row(out: &mut Vec<u8>, cells: &[Vec<u8>]) {
    for (i, cell) in cells.iter().enumerate() {
        if i > 0 {
            out.push(b',');
        }
        if !cell.iter().any(|byte| b",\"\r\n".contains(byte)) {
            out.extend_from_slice(cell);
            continue;
        }
        out.push(b'"');
        for byte in cell {
            if *byte == b'"' {
                out.push(b'"');
            }
            out.push(*byte);
        }
        out.push(b'"');
    }
    let ended = out.write_all(b"\r\n");
    debug_assert!(ended.is_ok()); // memory takes any text
}
