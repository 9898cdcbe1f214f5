//! Opening hours sheets, read by the proved static library of Lorukinde.
//!
//! ```
//! let sheet = b"Mo-Fr 09:00-18:00; 2021-2020 off; Sa 10:00-16:00";
//! for part in lorukinde::parts(sheet) {
//!     match part.reading {
//!         Ok(reading) => reading.rules().for_each(|rule| println!("{rule}")),
//!         Err(refusal) => println!("not read: {refusal}"),
//!     }
//! }
//! ```
//!
//! [`parts`] is what a job over many sheets wants: a slip loses its part and no other. [`read_sheet`] takes a sheet as a whole,
//! and [`read_part`] a single part, both into a table that the caller lends and without allocating. [`read_feed`] takes many
//! sheets at once, one a line. These read by edition 1 of the sheet rules; [`parts_in`], [`read_sheet_in`] and [`read_part_in`]
//! in the [`Manner`] that they are given: edition 1, edition 2, or the house profile.
//! A [`Tally`] counts what they answer, and tallies can be joined.
//! [`Rule::touches`] says whether a rule touches a day, [`rule_days`] the same of many days, and [`months`] which months a rule can touch.
//! [`explain`] says why a part is refused and what to write instead, [`explain_meant`] with a whole repair or none.
//! The records' words, in [`Placed`], and the refusals' numbers, in [`Refusal`], are those of `include/lorukinde.h`.
#![warn(missing_debug_implementations)]
#![deny(unsafe_code)]

#[cfg(not(any(target_arch = "x86_64", doc)))]
compile_error!("the archive is x86-64, and this build is not: tools/rust_tests.sh shows how to build for x86-64 here");
#[cfg(all(no_archive, not(doc)))]
compile_error!("libc_calls.a is not there: run tools/make_archive.sh first, or say its folder in LORUKINDE_LIB_DIR");

#[allow(unsafe_code)]
mod calls;
mod days;
mod empty;
mod expected;
mod explain;
mod feed;
mod foreign;
mod found;
mod hint;
mod house;
mod inverted;
mod manner;
mod meaning;
mod meant;
mod months;
mod names;
mod parts;
mod place;
mod range;
mod reading;
mod record;
mod refusal;
mod remarks;
mod scan;
mod slips;
mod spot;
mod table_refusal;
mod tally;
mod words;

use std::borrow::Cow;

pub use days::{rule_days, RecordedDay, Touch};
pub use explain::{explain, explain_meant, Explanation};
pub use feed::{read_feed, Feed, Line, LineAnswer, Lines};
pub use hint::Hint;
pub use manner::Manner;
pub use meaning::{
    Date, Dates, Day, Event, Head, Holiday, HolidayKind, Meaning, Month, Months, Placed, Separator, Span, State, Steps, Time,
    ToWeekday, Weekday, Weekdays,
};
pub use months::{months, renew, rule_months, Entry};
pub use names::{unusual_names, UnusualName};
pub use parts::{parts, parts_in, Part, Parts};
pub use place::{characters, shown, Character, Characters, Position};
pub use reading::{rules, Reading, Rule, Rules};
pub use record::Record;
pub use refusal::Refusal;
pub use remarks::{remarks, Remark};
pub use table_refusal::TableRefusal;
pub use tally::{Tally, COUNTS};
pub use words::Language;

/// A sheet longer than this is refused.
pub const SHEET_BYTES: usize = 4096;

/// Reads a whole sheet into the table. Accepted, only the records of the reading are written, at the table's start; refused,
/// the table is as it was.
pub fn read_sheet<'a>(sheet: &'a [u8], table: &'a mut [Record]) -> Result<Reading<'a>, Refusal> {
    read_sheet_in(Manner::default(), sheet, table)
}

/// Reads a whole sheet as [`read_sheet`] does, in a manner.
pub fn read_sheet_in<'a>(manner: Manner, sheet: &'a [u8], table: &'a mut [Record]) -> Result<Reading<'a>, Refusal> {
    outcome(sheet, calls::read_sheet(manner, sheet, table), table)
}

/// The answer for one part.
#[derive(Clone, Debug, PartialEq, Eq)]
pub struct PartReading<'a> {
    pub reading: Result<Reading<'a>, Refusal>,
    /// Where the next part begins; None if this was the last, or if the sheet is too long or no part begins at the given place.
    pub next: Option<usize>,
}

impl PartReading<'_> {
    /// Where the part ends, in a sheet of so many bytes: before the `;` after which the next begins, or at the sheet's end.
    pub fn end(&self, sheet_len: usize) -> usize {
        self.next.map_or(sheet_len, |next| next - 1)
    }
}

/// Reads the part of a sheet that begins at a place, the first at 0, into the table, which is written to as by [`read_sheet`].
/// Places count from the sheet's first byte.
pub fn read_part<'a>(sheet: &'a [u8], begin: usize, table: &'a mut [Record]) -> PartReading<'a> {
    read_part_in(Manner::default(), sheet, begin, table)
}

/// Reads a part as [`read_part`] does, in a manner.
pub fn read_part_in<'a>(manner: Manner, sheet: &'a [u8], begin: usize, table: &'a mut [Record]) -> PartReading<'a> {
    let answer = calls::read_part(manner, sheet, begin, table);
    let next = (answer.last == 0).then_some(answer.next as usize);
    PartReading { reading: outcome(sheet, answer, table), next }
}

/// The note shown for a rule: its comment out of the sheet, or the standing note, whole, where it has none. For a head that
/// does not fit the sheet it is empty. It is the lent bytes, no copy.
pub fn note<'a>(sheet: &'a [u8], standing: &'a [u8], head: &Head) -> &'a [u8] {
    let (of_sheet, from, to) = calls::note(sheet.len(), standing.len(), head.comment_start, head.comment_length);
    let whole = if of_sheet { sheet } else { standing };
    &whole[from..to]
}

fn outcome<'a>(sheet: &'a [u8], answer: calls::Answer, table: &'a [Record]) -> Result<Reading<'a>, Refusal> {
    if answer.number != 0 {
        return Err(Refusal { number: answer.number, place: answer.place as usize });
    }
    let records = &table[..answer.records as usize];
    Ok(Reading { sheet, records: Cow::Borrowed(records), warnings: answer.warnings })
}
