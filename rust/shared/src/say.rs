//! Sentences.
use crate::lent::{hand_over, lent, lent_mut, lent_table, manner};
use lorukinde::{explain_meant, rules, Language, Position, Refusal};

/// The rules of a table in plain words, one a line. A note has no byte below 32, so byte 10 parts them.
#[no_mangle]
pub unsafe extern "C" fn lorukinde_say_rules(
    sheet: *const u8,
    sheet_len: usize,
    table: *const u8,
    table_len: usize,
    out: *mut u8,
    out_len: usize,
) -> usize {
    let rules = rules(lent(sheet, sheet_len), lent_table(table, table_len));
    let said: Vec<String> = rules.map(|rule| rule.said(Language::English)).collect();
    hand_over(&said.join("\n"), lent_mut(out, out_len))
}

/// Why a part is refused, and what to write instead.
#[no_mangle]
pub unsafe extern "C" fn lorukinde_say_refusal(
    manner_number: u32,
    sheet: *const u8,
    sheet_len: usize,
    begin: usize,
    end: usize,
    number: u32,
    place: usize,
    out: *mut u8,
    out_len: usize,
) -> usize {
    let refusal = Refusal { number, place };
    let said = match manner(manner_number) {
        Some(manner) => explain_meant(manner, lent(sheet, sheet_len), begin..end, &refusal).to_string(),
        None => Refusal { number: Refusal::UNKNOWN_EDITION, place: 0 }.to_string(),
    };
    hand_over(&said, lent_mut(out, out_len))
}

/// A place as people count, by lines and characters.
#[no_mangle]
pub unsafe extern "C" fn lorukinde_position(
    text: *const u8,
    text_len: usize,
    place: usize,
    line: *mut usize,
    column: *mut usize,
) {
    let position = Position::of(lent(text, text_len), place);
    *line = position.line;
    *column = position.column;
}
