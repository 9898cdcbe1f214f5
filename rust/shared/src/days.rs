//! The rules of many parts over days.
use crate::lent::{hand_over, lent, lent_mut, lent_table, manner, Words};
use crate::parts::PartWords;
use lorukinde::{explain_meant, rules, Language, Manner, Record, Refusal, Rule};
use std::slice;

extern "C" {
    fn lorukinde_rule_days(
        table: *const u8,
        table_len: usize,
        rule: usize,
        days: *const u8,
        days_len: usize,
        answers: *mut u8,
        answers_len: usize,
    ) -> u32;
}

/// Year, month, day.
type DayWords = Words<3>;
/// An answer for a day: 0 no, 1 yes, 2 undecided.
type AnswerWord = Words<1>;

const NO_ANSWER_ROOM: u32 = 24;
const UNDECIDED: AnswerWord = [[2, 0, 0, 0]];

fn rule_days(table: &[Record], rule: usize, days: &[DayWords], answers: &mut [AnswerWord]) -> u32 {
    let (t, d) = (table.as_ptr().cast(), days.as_ptr().cast());
    let bytes = std::mem::size_of_val(answers);
    // Sound: the slices are so many initialised bytes, and the answers are lent to us alone.
    unsafe {
        let (table_len, days_len) = (std::mem::size_of_val(table), std::mem::size_of_val(days));
        lorukinde_rule_days(t, table_len, rule, d, days_len, answers.as_mut_ptr().cast(), bytes)
    }
}

/// A part out of its words, with its records.
struct Part<'a> {
    number: u32,
    place: usize,
    sheet: usize,
    begin: usize,
    end: usize,
    records: &'a [Record],
}

/// The parts, each with its records out of the table. Those whose records are not all there are not among them.
fn parts<'a>(parts: &'a [PartWords], mut table: &'a [Record]) -> impl Iterator<Item = Part<'a>> {
    parts.iter().map_while(move |words| {
        let [number, place, count, _, sheet, begin, end] = words.map(u32::from_le_bytes);
        let records = table.get(..count as usize)?;
        table = &table[records.len()..];
        Some(Part { number, place: place as usize, sheet: sheet as usize, begin: begin as usize, end: end as usize, records })
    })
}

/// The answers of every rule of every part for all days, a row for each rule.
#[no_mangle]
pub unsafe extern "C" fn lorukinde_parts_days(
    part_words: *const u8,
    parts_len: usize,
    table: *const u8,
    table_len: usize,
    days: *const u8,
    days_len: usize,
    answers: *mut u8,
    answers_len: usize,
) -> u32 {
    let days: &[DayWords] = lent(days, days_len);
    let mut free: &mut [AnswerWord] = lent_mut(answers, answers_len);
    for part in parts(lent(part_words, parts_len), lent_table(table, table_len)) {
        for rule in 0..rules(&[], part.records).count() {
            if free.len() < days.len() {
                return NO_ANSWER_ROOM;
            }
            let (row, rest) = free.split_at_mut(days.len());
            free = rest;
            match rule_days(part.records, rule, days, row) {
                0 => {}
                number => return number,
            }
        }
    }
    0
}

/// Of each rule of every part, and of each part that is refused, a line: what it says, the note, why a day is undecided.
#[no_mangle]
pub unsafe extern "C" fn lorukinde_say_parts(
    manner_number: u32,
    text: *const u8,
    ends: *const usize,
    sheets: usize,
    part_words: *const u8,
    parts_len: usize,
    table: *const u8,
    table_len: usize,
    days: *const u8,
    days_len: usize,
    answers: *const u8,
    answers_len: usize,
    out: *mut u8,
    out_len: usize,
) -> usize {
    let ends = slice::from_raw_parts(ends, sheets);
    let text: &[u8] = lent(text, ends.last().copied().unwrap_or(0));
    let days: &[DayWords] = lent(days, days_len);
    let mut rows = lent::<AnswerWord>(answers, answers_len).chunks_exact(days.len().max(1));
    let mut lines = String::new();
    for part in parts(lent(part_words, parts_len), lent_table(table, table_len)) {
        let begin = if part.sheet == 0 { 0 } else { ends[part.sheet - 1] };
        let sheet = &text[begin..ends[part.sheet]];
        if part.number != 0 {
            let said = why_refused(manner(manner_number).unwrap_or_default(), sheet, &part);
            lines.push_str(&format!("{said}\t\t\n"));
        }
        for rule in rules(sheet, part.records) {
            let note = String::from_utf8_lossy(rule.comment().unwrap_or_default());
            let first = rows.next().and_then(|row| row.iter().position(|answer| *answer == UNDECIDED));
            let why = first.map_or(String::new(), |day| undecided(&rule, days[day]).join(" and "));
            lines.push_str(&format!("{}\t{note}\t{why}\n", rule.said(Language::English)));
        }
    }
    hand_over(&lines, lent_mut(out, out_len))
}

fn why_refused(manner: Manner, sheet: &[u8], part: &Part<'_>) -> String {
    explain_meant(manner, sheet, part.begin..part.end, &Refusal { number: part.number, place: part.place }).to_string()
}

/// The items of a rule that a day is undecided by: each is asked alone.
fn undecided(rule: &Rule<'_>, day: DayWords) -> Vec<String> {
    const HEAD_OF_ONE: [i32; 16] = [1, 0, 0, 0, 0, 1, 0, 0, 0, 0, 0, 0, 0, 0, 0, 0];
    let is_undecided = |item: &Record| {
        let mut answer = [[[0; 4]]];
        rule_days(&[Record::from_words(HEAD_OF_ONE), *item], 0, &[day], &mut answer) == 0 && answer[0] == UNDECIDED
    };
    rule.records().iter().filter(|item| is_undecided(item)).map(|item| item.placed().meaning.said(Language::English)).collect()
}
