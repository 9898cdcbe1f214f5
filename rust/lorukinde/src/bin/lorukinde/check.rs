//! `lorukinde check`: what is refused, the names with unusual capitals and, under `--strict`, remarks, in lines as compilers write them.
use std::fmt::{Display, Write};
use std::os::unix::ffi::OsStrExt;

use lorukinde::{explain, unusual_names, Position, Record};

use crate::arguments::STANDARD_INPUT;
use crate::plain::Plain;
use crate::sheet::{Found, Sheet};

/// The number of what is accepted, which a name with unusual capitals is, and what is remarked on.
const ACCEPTED: u32 = 0;

pub fn check(sheet: &Sheet<'_>, table: &mut [Record], out: &mut Vec<u8>) -> Found {
    sheet.each_part(table, |part, reading, remarks| {
        match reading {
            Ok(reading) if reading.warnings() == 0 => {}
            Ok(_) => {
                for name in unusual_names(sheet.text(), part) {
                    line(sheet, name.place, ACCEPTED, &format!("`{}` is usually written `{}`", name.found, name.usual), out);
                }
            }
            Err(refusal) => {
                let explanation = explain(sheet.manner, sheet.text(), part, &refusal);
                line(sheet, explanation.place, refusal.number, &explanation, out);
            }
        }
        if sheet.is_strict {
            for remark in remarks {
                line(sheet, remark.place, ACCEPTED, &format!("remark: {remark}"), out);
            }
        }
    })
}

/// `FILE:LINE:COLUMN: number: sentence`
fn line(sheet: &Sheet<'_>, place: usize, number: u32, sentence: &dyn Display, out: &mut Vec<u8>) {
    let column = Position::of(sheet.text(), place).column;
    match sheet.input {
        input if input == STANDARD_INPUT => out.extend_from_slice(b"<stdin>"),
        input => out.extend_from_slice(input.as_bytes()),
    }
    let written = write!(Plain(out), ":{}:{column}: {number}: {sentence}", sheet.line.number);
    debug_assert!(written.is_ok()); // memory takes any text
    out.push(b'\n');
}
