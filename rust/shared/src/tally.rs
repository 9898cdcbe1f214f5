//! The tally of a whole feed.
use crate::lent::{lent, lent_mut, lent_table, Words};
use std::mem;

extern "C" {
    fn lorukinde_tally_add(
        tally: *mut u8,
        tally_len: usize,
        number: u32,
        place: u32,
        records: u32,
        warnings: u32,
        table: *const u8,
        table_len: usize,
    ) -> u32;
}

/// The records of an answer do not stand in the table.
const DO_NOT_FIT: u32 = 16;

/// Takes in the answers of a feed with their records, all or none.
#[no_mangle]
pub unsafe extern "C" fn lorukinde_tally_feed(
    tally: *mut u8,
    tally_len: usize,
    answers: *const u8,
    answers_len: usize,
    table: *const u8,
    table_len: usize,
) -> u32 {
    let tally: &mut [u8] = lent_mut(tally, tally_len);
    let mut table = lent_table(table, table_len);
    let mut after = tally.to_vec();
    for words in lent::<Words<4>>(answers, answers_len) {
        let [number, place, count, warnings] = words.map(u32::from_le_bytes);
        let records = match table.get(..count as usize) {
            Some(records) => records,
            None => return DO_NOT_FIT,
        };
        table = &table[records.len()..];
        let (first, bytes) = (records.as_ptr().cast(), mem::size_of_val(records));
        match lorukinde_tally_add(after.as_mut_ptr(), after.len(), number, place, count, warnings, first, bytes) {
            0 => {}
            refused => return refused,
        }
    }
    tally.copy_from_slice(&after);
    0
}
