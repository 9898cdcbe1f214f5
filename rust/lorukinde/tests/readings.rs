//! The cases of document 04: which number a refusal has, where it stands, and which words an item has.
mod common;
use common::{bytes_of, feed_lines, lines_of, one_part, sheet_lines, By};
use lorukinde::Manner;

/// tools/readings.txt: section, Ask and call, sheet, answer, parted by byte 9. The first line says how it was made.
#[test]
fn the_documents_cases() {
    let cases = lines_of("tools/readings.txt").unwrap();
    for line in &cases[1..] {
        let line = String::from_utf8_lossy(line);
        let fields: Vec<&str> = line.split('\t').collect();
        let asked_of_a_table = ["fit", "day", "months"].iter().any(|call| fields[1].split(' ').nth(1) == Some(call));
        if asked_of_a_table {
            continue; // tools/cases_tallies.txt and tools/cases_days.txt have them
        }
        let (sheet, expected) = (bytes_of(fields[2]), fields[3].replace("more", "0").replace("last", "1"));
        let call: Vec<&str> = fields[1].split(' ').collect();
        let by = match call[0].split_once('/') {
            None => By::PLAIN,
            Some((_, "house")) => By::In(Manner::House),
            Some((_, edition)) => By::edition(edition.parse().unwrap()),
        };
        let got = match call[1..] {
            [] => sheet_lines(by, &sheet, 512).swap_remove(0),
            ["words"] => items(sheet_lines(by, &sheet, 512)),
            ["part", begin] => one_part(by, &sheet, begin.parse().unwrap(), 512).0.swap_remove(0),
            ["feed", answers, words] => feed_answers(feed_lines(&sheet, answers.parse().unwrap(), words.parse().unwrap())),
            _ => panic!("no such call: {line}"),
        };
        assert_eq!(String::from_utf8_lossy(&got), expected, "{line}");
    }
    assert!(cases.len() > 60);
}

/// The records of an answer that are no heads, parted by ` / `.
fn items(lines: Vec<Vec<u8>>) -> Vec<u8> {
    lines[1..].iter().filter(|record| !record.starts_with(b"1 ")).cloned().collect::<Vec<_>>().join(&b" / "[..])
}

/// A feed's numbers, a colon, its lines' answers parted by ` / `.
fn feed_answers(lines: Vec<Vec<u8>>) -> Vec<u8> {
    let count = lines.iter().skip(1).filter(|line| line.iter().filter(|byte| **byte == b' ').count() == 3).count();
    let answers = lines[1..1 + count].join(&b" / "[..]);
    [&lines[0][..], b":", if answers.is_empty() { b"" } else { b" " }, &answers].concat()
}
