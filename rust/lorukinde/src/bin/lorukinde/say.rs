//! `lorukinde say`: each part in plain words, or why it is refused. Where a language is asked for, with sentences that leave nothing
//! to be guessed, and with remarks.
use std::fmt::{self, Write};
use std::ops::Range;

use lorukinde::{explain, explain_meant, unusual_names, Position, Reading, Record, Refusal, Remark};

use crate::caret;
use crate::plain::Plain;
use crate::sheet::{Found, Sheet};

pub fn say(sheet: &Sheet<'_>, table: &mut [Record], out: &mut Vec<u8>) -> Found {
    Plain(out).bytes(sheet.text());
    out.push(b'\n');
    sheet.each_part(table, |part, reading, remarks| {
        let said = match reading {
            Ok(reading) => rules(sheet, part, &reading, out),
            Err(refusal) => refused(sheet, part, &refusal, out),
        };
        let remarks = if sheet.language.is_some() { remarks } else { &[] };
        let said = said.and_then(|()| remarks.iter().try_for_each(|remark| remarked(sheet, remark, out)));
        debug_assert!(said.is_ok()); // memory takes any text
    })
}

fn rules(sheet: &Sheet<'_>, part: Range<usize>, reading: &Reading<'_>, out: &mut Vec<u8>) -> fmt::Result {
    for rule in reading.rules() {
        match sheet.language {
            Some(language) => write!(Plain(out), "  {}", rule.said(language))?,
            None => write!(Plain(out), "  {rule}")?,
        }
        out.push(b'\n');
    }
    if reading.warnings() == 0 {
        return Ok(());
    }
    for name in unusual_names(sheet.text(), part) {
        write!(Plain(out), "  (`{}` is usually written `{}`)", name.found, name.usual)?;
        out.push(b'\n');
    }
    Ok(())
}

fn remarked(sheet: &Sheet<'_>, remark: &Remark, out: &mut Vec<u8>) -> fmt::Result {
    let column = Position::of(sheet.text(), remark.place).column;
    write!(Plain(out), "  remark at character {column}: {remark}")?;
    out.push(b'\n');
    Ok(())
}

fn refused(sheet: &Sheet<'_>, part: Range<usize>, refusal: &Refusal, out: &mut Vec<u8>) -> fmt::Result {
    let explain = if sheet.language.is_some() { explain_meant } else { explain };
    let explanation = explain(sheet.manner, sheet.text(), part, refusal);
    let (line, under) = caret::lines(sheet.text(), explanation.place);
    let column = Position::of(sheet.text(), explanation.place).column;
    let first = format!("  not read, refusal {} at character {column}:", refusal.number);
    for text in [first, format!("    {line}"), format!("    {under}"), format!("    {explanation}")] {
        Plain(out).write_str(&text)?;
        out.push(b'\n');
    }
    Ok(())
}
