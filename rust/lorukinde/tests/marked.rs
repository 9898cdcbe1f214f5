//! The sheets marked P in the rules, with all their words, and the other sheets to try beside them.
//!
//! The marked sheets are the rows that crates/demands/proofs/Proved.antt proves; they are read from there.
mod common;
use common::{lines_of, one_part, sheet_lines, words, By};
use lorukinde::{read_sheet, Record};

/// The whole sheet, or the part at a place.
#[derive(Clone, Copy, Debug, PartialEq)]
enum Asked {
    Whole,
    Part(usize),
}

/// A row of the table: a sheet, what is read of it, the answer's numbers, the records' words.
struct Row {
    sheet: String,
    asked: Asked,
    numbers: Vec<i64>,
    records: Vec<Vec<i64>>,
}

/// What stands between two texts.
fn between<'a>(text: &'a str, before: &str, after: &str) -> &'a str {
    let from = text.split_once(before).unwrap_or_else(|| panic!("no `{before}` in {text}")).1;
    from.split_once(after).unwrap_or_else(|| panic!("no `{after}` in {text}")).0
}

/// A record, `(place, pos 1 ∷ pos 2 ∷ [])`, as 16 words: those that it has, zeros, its place.
fn record_of(text: &str) -> Vec<i64> {
    let (place, list) = text.split_once(", ").unwrap();
    let list = list.strip_suffix("[]").unwrap();
    let word = |word: &str| word.trim().strip_prefix("pos ").unwrap().parse::<i64>().unwrap();
    let mut all: Vec<i64> = list.split_terminator(" ∷ ").map(word).collect();
    all.resize(15, 0);
    all.push(place.parse().unwrap());
    all
}

/// `sheet = bytes "Mo"; asked = whole; number = 0; place = 0; warnings = 0; records = ... }`
fn row_of(text: &str) -> Row {
    let sheet = between(text, "sheet = bytes \"", "\"; asked = ");
    let (_, rest) = text.split_once("; asked = ").unwrap();
    let number = |name: &str| between(rest, name, ";").parse::<i64>().unwrap();
    let records: Vec<_> =
        between(rest, "records = ", "}").split('(').skip(1).map(|r| record_of(r.split_once(')').unwrap().0)).collect();
    let mut numbers = vec![number("number = "), number("place = "), records.len() as i64, number("warnings = ")];
    let asked = match rest.split(';').next().unwrap().split(' ').collect::<Vec<_>>()[..] {
        ["whole"] => Asked::Whole,
        ["part", begin, next, last] => {
            numbers.extend([next.parse().unwrap(), i64::from(last.parse::<bool>().unwrap())]);
            Asked::Part(begin.parse().unwrap())
        }
        _ => panic!("what is asked: {rest}"),
    };
    Row { sheet: sheet.to_string(), asked, numbers, records }
}

fn rows() -> Vec<Row> {
    let text = lines_of("crates/demands/proofs/Proved.antt").unwrap().join(&b'\n');
    let text = String::from_utf8(text).unwrap();
    // A row may stand on one line or on several.
    let rows: Vec<_> = between(&text, "\nrows =\n", "\n\n").lines().map(str::trim).collect();
    rows.join(" ").split("record { ").skip(1).map(row_of).collect()
}

#[test]
fn marked_sheets() {
    let rows = rows();
    for row in &rows {
        let got = match row.asked {
            Asked::Whole => sheet_lines(By::PLAIN, row.sheet.as_bytes(), 512),
            Asked::Part(begin) => one_part(By::PLAIN, row.sheet.as_bytes(), begin, 512).0,
        };
        let line = |numbers: &Vec<i64>| numbers.iter().map(i64::to_string).collect::<Vec<_>>().join(" ").into_bytes();
        let expected: Vec<_> = std::iter::once(&row.numbers).chain(&row.records).map(line).collect();
        assert_eq!(got, expected, "`{}`, {:?}", row.sheet, row.asked);
    }
    let parts = rows.iter().filter(|row| row.asked != Asked::Whole).count();
    assert_eq!((rows.len(), parts), (20, 3), "17 sheets, and the three parts of one of them");
}

/// The head of a first rule that is open, without a comment, with one item.
fn head() -> [i32; 16] {
    words([1, 0, 0, 0, 0, 1])
}

fn accepted(sheet: &str, expected: &[[i32; 16]]) {
    let mut table = common::marked(8);
    let reading = read_sheet(sheet.as_bytes(), &mut table).unwrap_or_else(|r| panic!("`{sheet}`: {r}"));
    let got: Vec<_> = reading.records().iter().map(Record::words).collect();
    assert_eq!(got, expected, "`{sheet}`");
    assert_eq!(reading.warnings(), 0, "`{sheet}`");
}

fn refused(sheet: &str, number: u32, place: usize) {
    let mut table = common::marked(8);
    let refusal = read_sheet(sheet.as_bytes(), &mut table).expect_err(sheet);
    assert_eq!((refusal.number, refusal.place), (number, place), "`{sheet}`");
    assert_eq!(table, common::marked(8), "`{sheet}`");
}

#[test]
fn other_sheets_to_try() {
    accepted("Jan 31-30", &[head(), words([4, 1, 0, 1, 31, 0, 0, 0, 1, 0, 3, 30])]);
    accepted("2021 Jan 30-29", &[head(), words([4, 1, 2021, 1, 30, 0, 0, 0, 1, 2021, 3, 29])]);
    accepted("2024 Jan 30-29", &[head(), words([4, 1, 2024, 1, 30, 0, 0, 0, 1, 2024, 2, 29])]);
    accepted("10:00-48:00", &[head(), words([8, 0, 600, 0, 2880, -1, 0])]);
    refused("10:00-48:01", 4, 0);
    refused("1899", 4, 0);
}

/// The program's output that the rules show, whole.
#[test]
fn as_the_program_writes_it() {
    let shown = "0 0 2 0\n1 0 0 0 0 1 0 0 0 0 0 0 0 0 0 0\n8 0 600 0 1440 -1 1 0 0 0 0 0 0 0 0 0";
    assert_eq!(sheet_lines(By::PLAIN, b"10:00+", 512).join(&b'\n'), shown.as_bytes());
}
