//! A sheet part by part, so that a slip in one loses that one and no other.
use std::borrow::Cow;
use std::ops::Range;

use crate::manner::Manner;
use crate::reading::Reading;
use crate::record::Record;
use crate::refusal::Refusal;
use crate::{read_part_in, SHEET_BYTES};

/// A part of a sheet: from where to where it goes, without the `;` after it, and what it says or why it is refused.
#[derive(Clone, Debug, PartialEq, Eq)]
pub struct Part<'a> {
    pub range: Range<usize>,
    pub reading: Result<Reading<'a>, Refusal>,
}

/// The parts of a sheet, from [`parts`] or [`parts_in`].
#[derive(Clone, Debug)]
pub struct Parts<'a> {
    manner: Manner,
    sheet: &'a [u8],
    begin: Option<usize>,
    table: Vec<Record>,
}

/// Reads each part of a sheet, from the first to the last. A sheet has at least one; one of over 4,096 bytes is a single
/// refused part. There is always room, so 10 is never among the refusals.
pub fn parts(sheet: &[u8]) -> Parts<'_> {
    parts_in(Manner::default(), sheet)
}

/// Reads each part as [`parts`] does, in a manner.
pub fn parts_in(manner: Manner, sheet: &[u8]) -> Parts<'_> {
    // There are never more records than bytes: the theorem `records-few` (crates/sheet/proofs/Bounds.antt).
    let room = sheet.len().min(SHEET_BYTES);
    Parts { manner, sheet, begin: Some(0), table: vec![Record::EMPTY; room] }
}

impl<'a> Iterator for Parts<'a> {
    type Item = Part<'a>;

    fn next(&mut self) -> Option<Part<'a>> {
        let begin = self.begin?;
        let part = read_part_in(self.manner, self.sheet, begin, &mut self.table);
        let end = part.end(self.sheet.len());
        self.begin = part.next;
        let reading = part.reading.map(|reading| Reading {
            sheet: self.sheet,
            records: Cow::Owned(reading.records().to_vec()),
            warnings: reading.warnings(),
        });
        Some(Part { range: begin..end, reading })
    }
}
