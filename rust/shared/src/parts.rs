//! Many sheets, each part by part.
use crate::lent::{lent_mut, manner, to_words, Words};
use lorukinde::{read_part_in, Manner, Record, Refusal, SHEET_BYTES};
use std::slice;

/// A part's number, place, records and warnings, the number of its sheet, and where it begins and ends there.
pub type PartWords = Words<7>;

/// The lent tables, and how much of each is used.
struct Room<'a> {
    parts: &'a mut [PartWords],
    part_count: usize,
    table: &'a mut [Record],
    records: usize,
}

impl Room<'_> {
    /// Whether a sheet of so many bytes is sure to fit: it has at most as many records as bytes, and at most one part more.
    fn is_enough_for(&self, sheet_len: usize) -> bool {
        let most = sheet_len.min(SHEET_BYTES);
        self.parts.len() - self.part_count > most && self.table.len() - self.records >= most
    }

    /// Reads a sheet that fits.
    fn read(&mut self, manner: Manner, sheet_number: usize, sheet: &[u8]) {
        let mut begin = Some(0);
        while let Some(start) = begin {
            let part = read_part_in(manner, sheet, start, &mut self.table[self.records..]);
            let end = part.end(sheet.len());
            begin = part.next;
            let [number, place, records, warnings] = match part.reading {
                Ok(reading) => [0, 0, reading.records().len(), reading.warnings() as usize],
                Err(refusal) => [refusal.number as usize, refusal.place, 0, 0],
            };
            self.parts[self.part_count] = to_words([number, place, records, warnings, sheet_number, start, end]);
            self.part_count += 1;
            self.records += records;
        }
    }
}

/// Reads sheets part by part from a first one on, as many as are sure to fit.
#[no_mangle]
pub unsafe extern "C" fn lorukinde_read_parts(
    manner_number: u32,
    text: *const u8,
    ends: *const usize,
    sheets: usize,
    first: usize,
    parts: *mut u8,
    parts_len: usize,
    table: *mut u8,
    table_len: usize,
    next: *mut usize,
    part_count: *mut usize,
    records: *mut usize,
) -> u32 {
    (*next, *part_count, *records) = (first, 0, 0);
    let manner = match manner(manner_number) {
        Some(manner) => manner,
        None => return Refusal::UNKNOWN_EDITION,
    };
    let mut room = Room { parts: lent_mut(parts, parts_len), part_count: 0, table: lent_mut(table, table_len), records: 0 };
    let ends = slice::from_raw_parts(ends, sheets);
    for (number, end) in ends.iter().enumerate().skip(first) {
        let begin = if number == 0 { 0 } else { ends[number - 1] };
        let sheet = slice::from_raw_parts(text.add(begin), end.saturating_sub(begin));
        if !room.is_enough_for(sheet.len()) {
            break;
        }
        room.read(manner, number, sheet);
        *next = number + 1;
    }
    (*part_count, *records) = (room.part_count, room.records);
    0
}
