//! Accepted sheets, damaged at random: no hint leads to another reading than the undamaged sheet's.
mod common;
#[path = "common/hints.rs"]
mod hints;
use common::lines_of;
use hints::{each_proposal, reading, refused};
use lorukinde::Manner;

/// What operators write in the place of a sign.
const INSTEAD: [(u8, &[&[u8]]); 5] = [
    (b'-', &[b" - ", b"- ", b" -", b"\xe2\x80\x93", b" \xe2\x80\x93 ", b"--", b" bis ", b" to "]),
    (b':', &[b".", b"h"]),
    (b',', &[b" ,", b" und ", b" & ", b" and ", b", "]),
    (b' ', &[b"  ", b"\xc2\xa0", b"\t", b"", b": "]),
    (b'"', &[b"'", b"\xe2\x80\x9c", b""]),
];
/// What is put in where nothing belongs.
const BESIDES: [&[u8]; 16] =
    [b" ", b".", b"-", b",", b":", b";", b"/", b"+", b"\"", b"(", b")", b"'", b"x", b"\xc2\xa0", b" Uhr", b"!"];

const TIMES: usize = 1500;

/// One slip of the hand: a letter left out, written twice or exchanged with the next, a sign written otherwise, or something put in. No
/// number loses a digit or is parted in two, since what is left is a number too, and no `;` is lost.
fn damaged(sheet: &[u8], random: &mut impl FnMut(usize) -> usize) -> Vec<u8> {
    let at = random(sheet.len());
    let (before, here, after) = (&sheet[..at], &sheet[at..at + 1], &sheet[at + 1..]);
    let instead = INSTEAD.iter().find(|(sign, _)| *sign == here[0]).map(|(_, some)| some);
    let is_letter = |byte: Option<&u8>| byte.map_or(false, u8::is_ascii_alphabetic);
    let parts_number = here[0].is_ascii_digit() && before.last().map_or(false, u8::is_ascii_digit);
    let is_quoted = before.iter().filter(|byte| **byte == b'"').count() % 2 == 1; // a note may say anything
    match (random(4), instead) {
        _ if is_quoted => sheet.to_vec(),
        (0 | 1, Some(instead)) => [before, instead[random(instead.len())], after].concat(),
        (0, None) if is_letter(here.first()) => [before, after].concat(),
        (1, None) if is_letter(here.first()) => [before, here, here, after].concat(),
        (2, None) if is_letter(here.first()) && is_letter(after.first()) => [before, &after[..1], here, &after[1..]].concat(),
        _ if parts_number => sheet.to_vec(),
        _ => [before, BESIDES[random(BESIDES.len())], here, after].concat(),
    }
}

/// Sheets of the lists that are accepted and have no rule after a comma or `||`: where such a sign is lost, `;` is proposed.
fn undamaged() -> Vec<Vec<u8>> {
    let lists =
        ["tools/oracle/common.txt", "tools/sheets_of_the_wiki.txt", "tools/sheets_of_the_rules.txt", "tools/oracle/sample.txt"];
    let sheets = lists.iter().flat_map(|list| lines_of(list).unwrap()).filter(|sheet| !sheet.is_empty() && sheet.len() < 80);
    let is_plain = |sheet: &Vec<u8>| {
        let rules = reading(Manner::Edition1, sheet);
        rules.map_or(false, |rules| rules.iter().all(|(records, _)| records[0][0] == 0))
    };
    sheets.filter(is_plain).collect()
}

#[test]
fn no_hint_leads_to_another_reading() {
    let sheets = undamaged();
    let mut random = hints::random(40);
    let (mut accepted, mut without_hint, mut hinted, mut reached, mut refused_still) = (0, 0, 0, 0, 0);
    let mut wrong = Vec::new();
    for _ in 0..TIMES {
        let sheet = &sheets[random(sheets.len())];
        let damaged = damaged(sheet, &mut random);
        let explanations = refused(Manner::Edition1, &damaged);
        match (explanations.is_empty(), explanations.iter().all(|(_, explanation)| explanation.hint.is_none())) {
            (true, _) => accepted += 1,
            (_, true) => without_hint += 1,
            _ => hinted += 1,
        }
        for (_, explanation) in &explanations {
            let ends = each_proposal(&damaged, explanation);
            let read: Vec<_> = ends.iter().filter_map(|end| reading(Manner::Edition1, end)).collect();
            let is_right = read.iter().any(|read| Some(read) == reading(Manner::Edition1, sheet).as_ref());
            reached += usize::from(is_right);
            refused_still += usize::from(!ends.is_empty() && read.is_empty());
            if !read.is_empty() && !is_right {
                wrong.push(format!("{} | {} | {explanation}", String::from_utf8_lossy(sheet), String::from_utf8_lossy(&damaged)));
            }
        }
    }
    println!(
        "{} sheets damaged {TIMES} times: {accepted} accepted still, {without_hint} without a hint, {hinted} with one:",
        sheets.len()
    );
    println!("{reached} reach the undamaged sheet, {refused_still} are refused still, {} have another reading", wrong.len());
    assert!(wrong.is_empty(), "{}", wrong.join("\n"));
    assert!(reached > TIMES / 10, "{reached}");
}
