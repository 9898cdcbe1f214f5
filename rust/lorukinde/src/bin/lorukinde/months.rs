//! `lorukinde months`: the months that each rule can touch, by name.
use std::fmt::{self, Write};
use std::ops::Range;

use lorukinde::{explain_meant, months as entries_of, Entry, Language, Reading, Record, Refusal};

use crate::plain::Plain;
use crate::sheet::{Found, Sheet};

const NAMES: [&str; 12] = ["Jan", "Feb", "Mar", "Apr", "May", "Jun", "Jul", "Aug", "Sep", "Oct", "Nov", "Dec"];

pub fn months(sheet: &Sheet<'_>, table: &mut [Record], out: &mut Vec<u8>) -> Found {
    Plain(out).bytes(sheet.text());
    out.push(b'\n');
    sheet.each_part(table, |part, reading, _| {
        let said = match reading {
            Ok(reading) => rules(&reading, out),
            Err(refusal) => refused(sheet, part, &refusal, out),
        };
        debug_assert!(said.is_ok()); // memory takes any text
    })
}

fn rules(reading: &Reading<'_>, out: &mut Vec<u8>) -> fmt::Result {
    let entries = entries_of(reading.records()).unwrap_or_default(); // a reading's records fit
    for (rule, entry) in reading.rules().zip(entries) {
        write!(Plain(out), "  {}: {}", names(&entry), rule.said(Language::English))?;
        out.push(b'\n');
    }
    Ok(())
}

/// The months by name; all twelve in a word.
fn names(entry: &Entry) -> String {
    let listed: Vec<_> = (1..).zip(NAMES).filter(|(month, _)| entry.can_touch(*month)).map(|(_, name)| name).collect();
    if listed.len() == NAMES.len() {
        return "all months".into();
    }
    listed.join(" ")
}

fn refused(sheet: &Sheet<'_>, part: Range<usize>, refusal: &Refusal, out: &mut Vec<u8>) -> fmt::Result {
    let column = refusal.position(sheet.text()).column;
    let explanation = explain_meant(sheet.manner, sheet.text(), part, refusal);
    write!(Plain(out), "  not read, refusal {} at character {column}: {explanation}", refusal.number)?;
    out.push(b'\n');
    Ok(())
}
