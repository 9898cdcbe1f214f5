//! `lorukinde tally`: figures over all sheets, each read as a whole, and of each file.
use std::ffi::{OsStr, OsString};
use std::io::Write;
use std::os::unix::ffi::OsStrExt;

use lorukinde::{read_sheet_in, Record, Refusal, Tally};

use crate::json::Writer;
use crate::sheet::{Found, Sheet};

/// How the figures are written.
#[derive(Clone, Copy, Default)]
pub struct Shape {
    pub json: bool,
    /// Each file's figures too.
    pub each: bool,
}

/// A tally for each file, in their order.
#[derive(Default)]
pub struct Figures {
    files: Vec<(OsString, Tally)>,
}

impl Figures {
    pub fn begin(&mut self, file: &OsStr) {
        self.files.push((file.to_owned(), Tally::default()));
    }

    /// Takes in a sheet of the file begun last.
    pub fn add(&mut self, sheet: &Sheet<'_>, table: &mut [Record]) -> Result<Found, Refusal> {
        let answer = read_sheet_in(sheet.manner, sheet.text(), table);
        if let Some((_, tally)) = self.files.last_mut() {
            tally.add(&answer)?;
        }
        Ok(Found { is_refused: answer.is_err(), is_remarked: false })
    }

    pub fn write(&self, shape: Shape, out: &mut Vec<u8>) -> Result<(), Refusal> {
        let sum: Tally = self.files.iter().map(|(_, tally)| tally).sum::<Result<_, _>>()?;
        if shape.json {
            self.write_json(&sum, shape.each, out);
        } else {
            self.write_plain(&sum, shape.each, out);
        }
        Ok(())
    }

    fn write_plain(&self, sum: &Tally, each: bool, out: &mut Vec<u8>) {
        let mut written = Ok(());
        if each {
            for (file, tally) in &self.files {
                out.extend_from_slice(file.as_bytes());
                written = written.and(write!(out, "\n{tally}\n"));
            }
            written = written.and(writeln!(out, "all files"));
        }
        written = written.and(write!(out, "{sum}"));
        debug_assert!(written.is_ok()); // memory takes any text
    }

    fn write_json(&self, sum: &Tally, each: bool, out: &mut Vec<u8>) {
        let mut w = Writer::new(out);
        w.object();
        if each {
            w.key("files").array();
            for (file, tally) in &self.files {
                w.object();
                w.key("file").bytes(file.as_bytes());
                counts(&mut w, tally);
                w.end_object();
            }
            w.end_array();
            w.key("sum").object();
            counts(&mut w, sum);
            w.end_object();
        } else {
            counts(&mut w, sum);
        }
        w.end_object();
        out.push(b'\n');
    }
}

/// The figures, as members of an object that is begun.
fn counts(w: &mut Writer<'_>, tally: &Tally) {
    w.key("read").number(tally.read());
    w.key("accepted").number(tally.accepted());
    w.key("refused").number(tally.refused());
    w.key("refused_with").object();
    tally.refusals().for_each(|(number, count)| w.key(&number.to_string()).number(count));
    w.end_object();
    w.key("warnings").number(tally.warnings());
    w.key("items").object();
    tally.items().for_each(|(kind, count)| w.key(kind).number(count));
    w.end_object();
    w.key("marks").number(tally.marks());
}
