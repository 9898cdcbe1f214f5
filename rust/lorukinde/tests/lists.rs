//! Long lists of sheets with fixed answers, and what parts and sheets owe each other on random ones.
mod common;
use common::{feed_lines, lines_of, part_lines, place_line, sheet_lines, By};
use lorukinde::{note, parts, read_sheet, Head, Manner, Meaning, Record, Refusal, Separator, State};

/// Cases with the answers of the repository's second reader, which repeat each case before its answer. A case: four digits for the
/// words of the table, a letter, a byte more, a sheet. S is the sheet, P its parts and their places, A both, L both without the
/// places, by the edition that the byte more says, a blank for the calls without one, h for house sheets; X two sheets that differ
/// in the part that it says, Y the same in edition 2, Z as house sheets; U two sheets that agree up to the end of the part that it
/// says, V the same in edition 2, W as house sheets; N notes; F a feed, byte 9 for byte 10, after four digits for the words of the
/// answer table.
fn replay(cases: &str, answers: &str) -> usize {
    let cases = lines_of(cases).unwrap();
    let mut expected = lines_of(answers).unwrap().into_iter();
    for case in &cases {
        let room = number_of(&case[..4]) / 16;
        let (mode, more, sheet) = (case[4], case[5], &case[6..]);
        let mut lines = vec![case.clone()];
        match mode {
            b'X' => lines.push(exchange_line(By::PLAIN, sheet, usize::from(more - b'0'), room)),
            b'Y' => lines.push(exchange_line(By::In(Manner::Edition2), sheet, usize::from(more - b'0'), room)),
            b'Z' => lines.push(exchange_line(By::In(Manner::House), sheet, usize::from(more - b'0'), room)),
            b'U' => lines.push(damage_line(By::PLAIN, sheet, usize::from(more - b'0'), room)),
            b'V' => lines.push(damage_line(By::In(Manner::Edition2), sheet, usize::from(more - b'0'), room)),
            b'W' => lines.push(damage_line(By::In(Manner::House), sheet, usize::from(more - b'0'), room)),
            b'N' => lines.extend(note_lines(sheet)),
            b'F' => lines.extend(feed_case_lines(sheet, room)),
            _ => {
                let by = match more {
                    b' ' => By::PLAIN,
                    b'h' => By::In(Manner::House),
                    edition => By::edition(u32::from(edition - b'0')),
                };
                if b"SAL".contains(&mode) {
                    lines.extend(sheet_lines(by, sheet, room));
                }
                if b"PAL".contains(&mode) {
                    lines.extend(part_lines(by, sheet, room));
                }
                if b"PA".contains(&mode) {
                    lines.push(place_line(by, sheet, room));
                }
            }
        }
        let expected: Vec<_> = expected.by_ref().take(lines.len()).collect();
        assert_eq!(lines, expected, "{}", String::from_utf8_lossy(case));
    }
    assert_eq!(expected.next(), None);
    println!("{} cases", cases.len());
    cases.len()
}

#[test]
fn the_repositorys_cases() {
    assert!(replay("crates/cases/stdin", "crates/cases/stdout") > 3000);
}

#[test]
fn the_cases_of_editions() {
    assert!(replay("tools/cases_editions.txt", "tools/cases_editions.out") > 1000);
}

#[test]
fn the_cases_of_house_sheets() {
    assert!(replay("tools/cases_house.txt", "tools/cases_house.out") > 1000);
}

#[test]
fn the_cases_of_damage() {
    assert!(replay("tools/cases_damage.txt", "tools/cases_damage.out") > 1000);
}

#[test]
fn the_cases_of_feeds() {
    assert!(replay("tools/cases_feeds.txt", "tools/cases_feeds.out") > 500);
}

fn feed_case_lines(case: &[u8], room: usize) -> Vec<Vec<u8>> {
    let feed: Vec<u8> = case[4..].iter().map(|byte| if *byte == b'\t' { b'\n' } else { *byte }).collect();
    feed_lines(&feed, number_of(&case[..4]), 16 * room)
}

/// A number of decimal digits.
fn number_of(digits: &[u8]) -> usize {
    digits.iter().fold(0, |n, digit| 10 * n + usize::from(digit - b'0'))
}

/// For some starts and lengths the note, and a bar after it; one line for each start.
fn note_lines(sheet: &[u8]) -> Vec<Vec<u8>> {
    let numbers = [i32::MIN, -1, 0, 1, 3, 5, 6, i32::MAX];
    let one = |comment_start, comment_length| {
        let head = Head { separator: Separator::Normal, state: State::Open, comment_start, comment_length, items: 0 };
        [note(sheet, b"standing", &head), b"|"].concat()
    };
    numbers.iter().map(|start| numbers.iter().flat_map(|length| one(*start, *length)).collect()).collect()
}

type SaidRule = (usize, Separator, State, Option<Vec<u8>>, Vec<[i32; 16]>);

/// An item's words, its place counted from `begin`.
fn from_begin(record: &Record, begin: usize) -> [i32; 16] {
    let words = record.words();
    common::at(record.placed().place - begin, words)
}

/// All that a part's reading says, with places counted from the part's beginning and comments instead of their places.
#[derive(PartialEq, Debug)]
struct Said {
    refusal: Option<(u32, usize)>,
    rules: Vec<SaidRule>,
    warnings: u32,
    next: Option<usize>,
}

fn all_said(by: By, sheet: &[u8], room: usize) -> Vec<Said> {
    let mut all = Vec::new();
    let mut begin = Some(0);
    while let Some(at) = begin {
        let mut table = common::marked(room);
        let part = by.part(sheet, at, &mut table);
        begin = part.next;
        let reading = part.reading.as_ref();
        all.push(Said {
            refusal: reading.err().map(|r| (r.number, r.place - at)),
            rules: reading.map_or(Vec::new(), |r| {
                r.rules()
                    .map(|x| {
                        let items = x.records().iter().map(|record| from_begin(record, at)).collect();
                        (x.place - at, x.head.separator, x.head.state, x.comment().map(<[u8]>::to_vec), items)
                    })
                    .collect()
            }),
            warnings: reading.map_or(0, |r| r.warnings()),
            next: part.next.map(|next| next - at),
        });
    }
    all
}

/// Two sheets with byte 9 between them, of which part `k` differs: how many of the others are read alike, and how many not.
fn exchange_line(by: By, two: &[u8], k: usize, room: usize) -> Vec<u8> {
    let tab = two.iter().position(|byte| *byte == b'\t').unwrap();
    let (one, other) = (all_said(by, &two[..tab], room), all_said(by, &two[tab + 1..], room));
    let others = one.iter().zip(&other).enumerate().filter(|(i, _)| *i != k);
    let (alike, not): (Vec<_>, Vec<_>) = others.partition(|(_, (a, b))| a == b);
    format!("X {} {}", alike.len(), not.len()).into_bytes()
}

/// Two sheets with byte 9 between them, that agree up to the `;` that ends part `k`: how many of the parts up to there are read
/// alike, and how many not. Each begins where the one before it says, so those that are alike stand at the same places.
fn damage_line(by: By, two: &[u8], k: usize, room: usize) -> Vec<u8> {
    let tab = two.iter().position(|byte| *byte == b'\t').unwrap();
    let (one, other) = (all_said(by, &two[..tab], room), all_said(by, &two[tab + 1..], room));
    let (alike, not): (Vec<_>, Vec<_>) = one.iter().zip(&other).take(k + 1).partition(|(a, b)| a == b);
    format!("U {} {}", alike.len(), not.len()).into_bytes()
}

/// docs/DIFFERENCES.md, 6: the Rust ends on a day that the month lacks; here a bare end day is then in the next month.
fn moved_to_the_next_month(ours: &[u8], rusts: &[u8]) -> bool {
    let words =
        |line: &[u8]| -> Vec<i32> { String::from_utf8_lossy(line).split(' ').map(|word| word.parse().unwrap()).collect() };
    let (ours, mut rusts) = (words(ours), words(rusts));
    if rusts[0] != 4 || rusts[8] != 1 {
        return false;
    }
    let (year, month, day) = (rusts[9], rusts[10], rusts[11]);
    let last = match month {
        2 if year % 4 == 0 && (year % 100 != 0 || year % 400 == 0) => 29, // without a year, which is 0, too
        2 => 28,
        4 | 6 | 9 | 11 => 30,
        _ => 31,
    };
    rusts[10] += 1;
    last < day && ours == rusts
}

/// A record's line with 0 for its item's place; an answer's line as it is.
fn without_place(line: &[u8]) -> Vec<u8> {
    let words: Vec<&[u8]> = line.split(|byte| *byte == b' ').collect();
    match words.len() {
        16 => [&words[..15], &[&b"0"[..]]].concat().join(&b' '),
        _ => line.to_vec(),
    }
}

/// The oracle's fixed list, where it is there: sheets, one a line, and for each the four numbers of its answer and its records
/// (a table of 512), as the program writes them, but for the places of items, which the oracle does not know. The first line of
/// both files says how they were made.
#[test]
fn the_oracles_list() {
    let (sheets, expected) = match (lines_of("tools/oracle/sample.txt"), lines_of("tools/oracle/sample.out")) {
        (Ok(sheets), Ok(expected)) => (sheets, expected),
        _ => return println!("tools/oracle has no sample.txt with sample.out: not run"),
    };
    let mut expected = expected.into_iter().skip(1);
    let mut moved = 0;
    for sheet in &sheets[1..] {
        for line in sheet_lines(By::PLAIN, sheet, 512).iter().map(|line| without_place(line)) {
            let rusts = expected.next().unwrap();
            if line != rusts {
                assert!(moved_to_the_next_month(&line, &rusts), "{}", String::from_utf8_lossy(sheet));
                moved += 1;
            }
        }
    }
    assert_eq!(expected.next(), None);
    println!("{} sheets, {moved} bare end days moved", sheets.len() - 1);
}

/// Random sheets: the whole is accepted where every part is, with their records one after the other, and else refused as the
/// first refused part is. No record stays without a meaning, and every rule can be said.
#[test]
fn parts_make_the_sheet() {
    const PIECES: [&str; 34] = [
        "Mo",
        "tu-Th",
        "Fr[3-1,2]",
        "PH",
        "SH -1 day",
        "10:00-12:00",
        "10:00+",
        "(sunset-1:00)-26:00",
        "10:00",
        "24/7",
        "2020",
        "2021-2020",
        "1899",
        "Jan",
        "2020 Dec 25-05",
        "easter-05",
        "easter +1 day",
        "week 1-5/2",
        "week 5-1",
        "off",
        "OPEN",
        "unknown",
        "\"c\"",
        "\"a;b\"",
        "\"",
        ";",
        ";",
        "; ",
        ", ",
        ",",
        " || ",
        ": ",
        "x",
        "",
    ];
    let mut state = 1u64;
    let mut random = |below: usize| {
        state = state.wrapping_mul(6364136223846793005).wrapping_add(1442695040888963407);
        (state >> 33) as usize % below
    };
    let mut accepted = 0;
    for _ in 0..4000 {
        let mut sheet = String::new();
        for _ in 0..random(8) {
            sheet.push_str(PIECES[random(PIECES.len())]);
            sheet.push_str([" ", " ", "", ";"][random(4)]);
        }
        let read: Vec<_> = parts(sheet.as_bytes()).map(|part| part.reading).collect();
        let together: Result<Vec<_>, Refusal> = read.iter().cloned().collect();
        let together = together.map(|all| {
            let records: Vec<Record> = all.iter().flat_map(|r| r.records().to_vec()).collect();
            (records, all.iter().map(|r| r.warnings()).sum::<u32>())
        });
        let mut table = common::marked(64);
        let whole = read_sheet(sheet.as_bytes(), &mut table);
        assert_eq!(whole.clone().map(|r| (r.records().to_vec(), r.warnings())), together, "{sheet:?}");
        if let Ok(whole) = whole {
            accepted += 1;
            assert!(whole.placed().all(|placed| !matches!(placed.meaning, Meaning::Raw(_))), "{sheet:?}");
            assert!(whole.rules().all(|rule| !rule.to_string().is_empty()));
        }
    }
    assert!(accepted > 100, "{accepted}");
}
