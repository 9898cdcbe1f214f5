//! A sheet and where it was found, and its parts read into a table that serves all sheets.
use std::ffi::OsStr;
use std::ops::Range;

use lorukinde::{read_part_in, remarks, Language, Manner, Reading, Record, Refusal, Remark};

use crate::input::Line;

#[derive(Clone, Copy)]
pub struct Sheet<'a> {
    pub manner: Manner,
    pub language: Option<Language>,
    /// `check` and `json` say remarks too.
    pub is_strict: bool,
    pub input: &'a OsStr,
    pub line: Line<'a>,
}

/// What was found in a sheet.
#[derive(Clone, Copy, Default)]
pub struct Found {
    pub is_refused: bool,
    pub is_remarked: bool,
}

impl<'a> Sheet<'a> {
    pub fn text(&self) -> &'a [u8] {
        self.line.text
    }

    /// Reads part after part and hands each on, with its range and the remarks on it.
    pub fn each_part(
        &self,
        table: &mut [Record],
        mut take: impl FnMut(Range<usize>, Result<Reading<'_>, Refusal>, &[Remark]),
    ) -> Found {
        let all = remarks(self.manner, self.text());
        let mut found = Found { is_refused: false, is_remarked: !all.is_empty() };
        let mut begin = Some(0);
        while let Some(start) = begin {
            let part = read_part_in(self.manner, self.text(), start, table);
            found.is_refused |= part.reading.is_err();
            begin = part.next;
            let end = part.end(self.text().len());
            let first = all.iter().take_while(|remark| remark.place < start).count();
            let count = all[first..].iter().take_while(|remark| remark.place <= end).count();
            take(start..end, part.reading, &all[first..first + count]);
        }
        found
    }
}
