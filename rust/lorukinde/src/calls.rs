//! The calls of the static library, as include/lorukinde.h declares them. All that is unsafe in this crate stands here.
//!
//! What the library asks of its caller: no pointer is null, not even one with the length 0; each points to so many bytes, or to
//! one number, that are initialised; what a call writes to overlaps nothing else that it is given. A call keeps no pointer,
//! allocates nothing and changes nothing else, for any bytes and any numbers.
use crate::days::{DayAnswer, RecordedDay};
use crate::feed::LineAnswer;
use crate::manner::Manner;
use crate::months::Entry;
use crate::record::Record;
use crate::tally::TALLY_BYTES;

extern "C" {
    fn lorukinde_read_sheet(
        sheet: *const u8,
        sheet_len: usize,
        table: *mut u8,
        table_len: usize,
        place: *mut u32,
        records: *mut u32,
        warnings: *mut u32,
    ) -> u32;

    fn lorukinde_read_part(
        sheet: *const u8,
        sheet_len: usize,
        begin: usize,
        table: *mut u8,
        table_len: usize,
        place: *mut u32,
        records: *mut u32,
        warnings: *mut u32,
        next: *mut u32,
        last: *mut u32,
    ) -> u32;

    fn lorukinde_read_sheet_in(
        edition: u32,
        sheet: *const u8,
        sheet_len: usize,
        table: *mut u8,
        table_len: usize,
        place: *mut u32,
        records: *mut u32,
        warnings: *mut u32,
    ) -> u32;

    fn lorukinde_read_part_in(
        edition: u32,
        sheet: *const u8,
        sheet_len: usize,
        begin: usize,
        table: *mut u8,
        table_len: usize,
        place: *mut u32,
        records: *mut u32,
        warnings: *mut u32,
        next: *mut u32,
        last: *mut u32,
    ) -> u32;

    fn lorukinde_read_house_sheet(
        sheet: *const u8,
        sheet_len: usize,
        table: *mut u8,
        table_len: usize,
        place: *mut u32,
        records: *mut u32,
        warnings: *mut u32,
    ) -> u32;

    fn lorukinde_read_house_part(
        sheet: *const u8,
        sheet_len: usize,
        begin: usize,
        table: *mut u8,
        table_len: usize,
        place: *mut u32,
        records: *mut u32,
        warnings: *mut u32,
        next: *mut u32,
        last: *mut u32,
    ) -> u32;

    fn lorukinde_read_feed(
        feed: *const u8,
        feed_len: usize,
        answers: *mut u8,
        answers_len: usize,
        table: *mut u8,
        table_len: usize,
        lines: *mut usize,
        records: *mut usize,
    ) -> u32;

    fn lorukinde_tally_add(
        tally: *mut u8,
        tally_len: usize,
        number: u32,
        place: u32,
        records: u32,
        warnings: u32,
        table: *const u8,
        table_len: usize,
    ) -> u32;

    fn lorukinde_tally_join(tally: *mut u8, tally_len: usize, other: *const u8, other_len: usize) -> u32;

    fn lorukinde_rule_days(
        table: *const u8,
        table_len: usize,
        rule: usize,
        days: *const u8,
        days_len: usize,
        answers: *mut u8,
        answers_len: usize,
    ) -> u32;

    fn lorukinde_rule_months(table: *const u8, table_len: usize, entries: *mut u8, entries_len: usize) -> u32;

    fn lorukinde_renew_months(
        entries: *mut u8,
        entries_len: usize,
        rules: usize,
        first: usize,
        old_records: usize,
        table: *const u8,
        table_len: usize,
    ) -> u32;

    fn lorukinde_note(sheet_len: usize, note_len: usize, start: i32, length: i32, from: *mut usize, to: *mut usize) -> u32;
}

/// Edition 2, as the calls that take an edition are told it.
const SECOND: u32 = 2;

/// The numbers of a reading. `next` and `last` are a part's; for a sheet they stay 0.
#[derive(Default)]
pub struct Answer {
    pub number: u32,
    pub place: u32,
    pub records: u32,
    pub warnings: u32,
    pub next: u32,
    pub last: u32,
}

pub fn read_sheet(manner: Manner, sheet: &[u8], table: &mut [Record]) -> Answer {
    let mut a = Answer::default();
    let (s, n) = (sheet.as_ptr(), sheet.len());
    let (t, bytes) = (table.as_mut_ptr().cast::<u8>(), std::mem::size_of_val(table));
    let (place, records, warnings) = (&mut a.place, &mut a.records, &mut a.warnings);
    // Sound: a slice's pointer is never null, and its bytes are initialised. A Record is 64 bytes without padding, of which any
    // values are a Record, so the table is size_of_val(table) bytes to be written at will. The table is lent to us alone, and
    // the numbers are three fields of our own, so nothing written overlaps anything.
    a.number = unsafe {
        match manner {
            Manner::Edition1 => lorukinde_read_sheet(s, n, t, bytes, place, records, warnings),
            Manner::Edition2 => lorukinde_read_sheet_in(SECOND, s, n, t, bytes, place, records, warnings),
            Manner::House => lorukinde_read_house_sheet(s, n, t, bytes, place, records, warnings),
        }
    };
    a
}

pub fn read_part(manner: Manner, sheet: &[u8], begin: usize, table: &mut [Record]) -> Answer {
    let mut a = Answer::default();
    let (s, n) = (sheet.as_ptr(), sheet.len());
    let (t, bytes) = (table.as_mut_ptr().cast::<u8>(), std::mem::size_of_val(table));
    let (place, records, warnings) = (&mut a.place, &mut a.records, &mut a.warnings);
    let (next, last) = (&mut a.next, &mut a.last);
    // Sound: as for a sheet, with five fields of our own. Any `begin` has an answer: it is compared, not followed.
    a.number = unsafe {
        match manner {
            Manner::Edition1 => lorukinde_read_part(s, n, begin, t, bytes, place, records, warnings, next, last),
            Manner::Edition2 => lorukinde_read_part_in(SECOND, s, n, begin, t, bytes, place, records, warnings, next, last),
            Manner::House => lorukinde_read_house_part(s, n, begin, t, bytes, place, records, warnings, next, last),
        }
    };
    a
}

/// A feed's number, lines and records.
pub fn read_feed(feed: &[u8], answers: &mut [LineAnswer], table: &mut [Record]) -> (u32, usize, usize) {
    let (mut lines, mut records) = (0, 0);
    // Sound: as for a sheet. A LineAnswer is 16 bytes without padding, of which any values are a LineAnswer, and the answers are
    // lent to us alone as the table is; the numbers are two of our own.
    let number = unsafe {
        lorukinde_read_feed(
            feed.as_ptr(),
            feed.len(),
            answers.as_mut_ptr().cast::<u8>(),
            std::mem::size_of_val(answers),
            table.as_mut_ptr().cast::<u8>(),
            std::mem::size_of_val(table),
            &mut lines,
            &mut records,
        )
    };
    (number, lines, records)
}

/// A tally takes in an answer's four numbers and its records.
pub fn tally_add(tally: &mut [u8; TALLY_BYTES], answer: [u32; 4], records: &[Record]) -> u32 {
    let [number, place, count, warnings] = answer;
    let (table, bytes) = (records.as_ptr().cast::<u8>(), std::mem::size_of_val(records));
    // Sound: a tally is 136 bytes lent to us alone; the records are size_of_val(records) initialised bytes that are only read.
    unsafe { lorukinde_tally_add(tally.as_mut_ptr(), tally.len(), number, place, count, warnings, table, bytes) }
}

pub fn tally_join(tally: &mut [u8; TALLY_BYTES], other: &[u8; TALLY_BYTES]) -> u32 {
    // Sound: one tally is lent to us alone, so the other, which is only read, lies elsewhere.
    unsafe { lorukinde_tally_join(tally.as_mut_ptr(), tally.len(), other.as_ptr(), other.len()) }
}

/// Whether the note is a part of the sheet (else of the standing note), and from where to where.
pub fn note(sheet_len: usize, note_len: usize, start: i32, length: i32) -> (bool, usize, usize) {
    let (mut from, mut to) = (0, 0);
    // Sound: numbers go in, and two numbers of our own are written; any numbers have an answer.
    let of_sheet = unsafe { lorukinde_note(sheet_len, note_len, start, length, &mut from, &mut to) };
    (of_sheet == 1, from, to)
}

/// The bytes of a slice whose elements are bytes without padding.
fn bytes_of<T>(slice: &[T]) -> (*const u8, usize) {
    (slice.as_ptr().cast::<u8>(), std::mem::size_of_val(slice))
}

/// The number of a rule run over days.
pub fn rule_days(table: &[Record], rule: usize, days: &[RecordedDay], answers: &mut [DayAnswer]) -> u32 {
    let ((t, table_len), (d, days_len)) = (bytes_of(table), bytes_of(days));
    // Sound: as for a sheet. A RecordedDay is 12 bytes and a DayAnswer 4, both without padding, of which any values will do; only
    // the answers are written, and they are lent to us alone. Any `rule` has an answer.
    unsafe {
        let answers_len = std::mem::size_of_val(answers);
        lorukinde_rule_days(t, table_len, rule, d, days_len, answers.as_mut_ptr().cast::<u8>(), answers_len)
    }
}

/// The number of building a list of entries.
pub fn rule_months(table: &[Record], entries: &mut [Entry]) -> u32 {
    let (t, table_len) = bytes_of(table);
    // Sound: as for a rule run over days. An Entry is 8 bytes without padding, of which any values will do.
    unsafe { lorukinde_rule_months(t, table_len, entries.as_mut_ptr().cast::<u8>(), std::mem::size_of_val(entries)) }
}

/// The number of renewing a list of entries.
pub fn renew_months(entries: &mut [Entry], rules: usize, first: usize, old_records: usize, table: &[Record]) -> u32 {
    let (t, table_len) = bytes_of(table);
    let entries_len = std::mem::size_of_val(entries);
    // Sound: as for building. Any numbers have an answer: they are compared and added, and what they name is looked at only if it is there.
    unsafe { lorukinde_renew_months(entries.as_mut_ptr().cast::<u8>(), entries_len, rules, first, old_records, t, table_len) }
}
