//! `lorukinde json`: one object a sheet, in a line. docs/JSON.md says what is in it.
mod items;
mod writer;

use std::ops::Range;
use std::os::unix::ffi::OsStrExt;

use lorukinde::{explain, unusual_names, Hint, Manner, Position, Reading, Record, Refusal, Remark, Rule, Separator};

use crate::sheet::{Found, Sheet};
pub use writer::Writer;

pub fn json(sheet: &Sheet<'_>, table: &mut [Record], out: &mut Vec<u8>) -> Found {
    let mut w = Writer::new(out);
    w.object();
    w.key("file").bytes(sheet.input.as_bytes());
    w.key("line").number(sheet.line.number);
    w.key("manner").text(match sheet.manner {
        Manner::Edition1 => "edition 1",
        Manner::Edition2 => "edition 2",
        Manner::House => "house",
    });
    w.key("sheet").bytes(sheet.text());
    w.key("bytes").number(sheet.line.bytes);
    w.key("parts").array();
    let found = sheet.each_part(table, |part, reading, remarks| one_part(&mut w, sheet, part, reading, remarks));
    w.end_array();
    w.end_object();
    out.push(b'\n');
    found
}

type ReadPart<'a> = Result<Reading<'a>, Refusal>;

fn one_part(w: &mut Writer<'_>, sheet: &Sheet<'_>, part: Range<usize>, reading: ReadPart<'_>, remarks: &[Remark]) {
    // Of a sheet that is too long only the beginning is at hand, but its last part ends where it ends.
    let end = if part.end == sheet.text().len() { sheet.line.bytes } else { part.end };
    w.object();
    w.key("range").range(&(part.start..end));
    match &reading {
        Ok(reading) => accepted(w, sheet, part, reading, remarks),
        Err(refusal) => refused(w, sheet, part, refusal),
    }
    w.end_object();
}

fn accepted(w: &mut Writer<'_>, sheet: &Sheet<'_>, part: Range<usize>, reading: &Reading<'_>, remarks: &[Remark]) {
    w.key("number").number(0);
    w.key("place").number(0);
    w.key("rules").array();
    reading.rules().for_each(|rule| one_rule(w, &rule));
    w.end_array();
    w.key("unusual").array();
    for name in unusual_names(sheet.text(), part) {
        w.object();
        w.key("place").number(name.place);
        w.key("found").text(name.found);
        w.key("usual").text(name.usual);
        w.end_object();
    }
    w.end_array();
    if sheet.is_strict && !remarks.is_empty() {
        w.key("remarks").array();
        remarks.iter().for_each(|remark| one_remark(w, sheet, remark));
        w.end_array();
    }
}

fn refused(w: &mut Writer<'_>, sheet: &Sheet<'_>, part: Range<usize>, refusal: &Refusal) {
    let explanation = explain(sheet.manner, sheet.text(), part, refusal);
    w.key("number").number(refusal.number);
    w.key("place").number(refusal.place);
    w.key("column").number(Position::of(sheet.text(), refusal.place).column);
    w.key("sentence").text(&explanation.to_string());
    hint(w, &explanation.hint);
}

fn hint(w: &mut Writer<'_>, hint: &Option<Hint>) {
    w.key("hint");
    match hint {
        None => w.null(),
        Some(hint) => {
            w.object();
            w.key("range").range(&hint.range);
            w.key("write").array();
            hint.write.iter().for_each(|write| w.text(write));
            w.end_array();
            w.end_object();
        }
    }
}

fn one_remark(w: &mut Writer<'_>, sheet: &Sheet<'_>, remark: &Remark) {
    w.object();
    w.key("place").number(remark.place);
    w.key("column").number(Position::of(sheet.text(), remark.place).column);
    w.key("sentence").text(&remark.to_string());
    hint(w, &remark.hint);
    w.end_object();
}

fn one_rule(w: &mut Writer<'_>, rule: &Rule<'_>) {
    w.object();
    w.key("place").number(rule.place);
    w.key("separator").text(match rule.head.separator {
        Separator::Normal => "normal",
        Separator::Additional => "additional",
        Separator::Fallback => "fallback",
    });
    w.key("state").text(&rule.head.state.to_string());
    w.key("note");
    match rule.comment() {
        None => w.null(),
        Some(note) => w.bytes(note),
    }
    w.key("items").array();
    rule.items().for_each(|item| items::item(w, &item));
    w.end_array();
    w.end_object();
}
