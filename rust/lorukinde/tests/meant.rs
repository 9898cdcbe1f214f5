//! Slips as operators make them, each with what was meant and the sentence that it gets.
mod common;
#[path = "common/hints.rs"]
mod hints;
use common::{bytes_of, lines_of};
use hints::{manner, reading, refused, repaired};
use lorukinde::{Manner, Refusal};

/// A line of tests/meant.txt.
struct Slip {
    manner: Manner,
    sheet: Vec<u8>,
    number_and_place: String,
    /// The sheet that its writer meant; None where nobody can say.
    meant: Option<Vec<u8>>,
    sentence: String,
}

/// tests/meant.txt: manner, sheet, number and place of its first refused part, what was meant, sentence, parted by byte 9. Its first
/// lines say how it was made.
fn slips() -> Vec<Slip> {
    let lines = lines_of("rust/lorukinde/tests/meant.txt").unwrap();
    let slips = lines.iter().filter(|line| !line.starts_with(b"#")).map(|line| {
        let line = String::from_utf8(line.clone()).unwrap();
        let fields: Vec<&str> = line.split('\t').collect();
        Slip {
            manner: manner(fields[0]),
            sheet: bytes_of(fields[1]),
            number_and_place: fields[2..4].join("\t"),
            meant: Some(bytes_of(fields[4])).filter(|meant| meant != b"?"),
            sentence: fields[5].into(),
        }
    });
    slips.collect()
}

#[test]
fn each_slip_has_its_sentence() {
    for slip in slips() {
        let shown = String::from_utf8_lossy(&slip.sheet);
        let found = refused(slip.manner, &slip.sheet);
        let (refusal, explanation) = found.first().unwrap_or_else(|| panic!("accepted: {shown}"));
        let number_and_place = format!("{}\t{}", refusal.number, refusal.place);
        assert_eq!((number_and_place, explanation.to_string()), (slip.number_and_place, slip.sentence), "{shown}");
    }
}

/// What the hints make of a slip, one after the other, has the reading of the sheet that was meant, or is refused still. Where a hint
/// offers more than one text, one of them is what was meant.
#[test]
fn a_hint_leads_to_what_was_meant() {
    let (mut reached, mut without_hint, mut refused_still) = (0, 0, 0);
    let slips = slips();
    for slip in &slips {
        let ends = repaired(slip.manner, &slip.sheet);
        let shown: Vec<_> = ends.iter().map(|end| String::from_utf8_lossy(end)).collect();
        let meant = slip.meant.as_ref().map(|meant| reading(slip.manner, meant).expect("what was meant is accepted"));
        let read: Vec<_> = ends.iter().filter_map(|end| reading(slip.manner, end)).collect();
        assert!(read.is_empty() || read.iter().any(|read| Some(read) == meant.as_ref()), "{:?}", shown);
        match (ends == [slip.sheet.clone()], read.is_empty()) {
            (true, _) => without_hint += 1,
            (false, true) => refused_still += 1,
            (false, false) => reached += 1,
        }
    }
    println!("{} slips: {reached} reached, {without_hint} without a hint, {refused_still} refused still", slips.len());
    assert!(slips.len() >= 300 && reached * 100 >= slips.len() * 75);
}

/// Every refused part has a sentence that says what was expected, or which number is out of range.
#[test]
fn damaged_sheets_are_explained() {
    const EVERY: usize = 7; // of the sheets in the list
    const DAMAGES: [&[u8]; 12] = [b"", b" ", b".", b"-", b",", b";", b":", b"\"", b"0", b"x", b"\xe2\x80\x93", b"\xff"];
    let sheets = lines_of("tools/oracle/sample.txt").unwrap();
    let (mut damaged, mut found) = (0, 0);
    for (i, sheet) in sheets[1..].iter().enumerate().filter(|(i, sheet)| i % EVERY == 0 && sheet.len() < 60) {
        for at in 0..sheet.len() {
            let damage = DAMAGES[(i / EVERY + at) % DAMAGES.len()];
            let sheet = [&sheet[..at], damage, &sheet[at + 1..]].concat();
            let before = refused(Manner::Edition1, &sheet);
            for (refusal, explanation) in &before {
                let says_what = match refusal.number {
                    Refusal::NO_SHAPE => explanation.wrong.contains(": expected "),
                    Refusal::RANGE => explanation.wrong.contains("` is out of range: "),
                    _ => true,
                };
                assert!(says_what, "{:?}: {explanation}", String::from_utf8_lossy(&sheet));
            }
            damaged += 1;
            found += before.len();
        }
    }
    println!("{damaged} damaged sheets, {found} refused parts");
    assert!(found > 3000);
}

/// What random sheets are made of.
const PIECES: [&[u8]; 24] = [
    b"Mo",
    b"-",
    b" ",
    b",",
    b";",
    b"10:00",
    b"9",
    b"25.12.2020",
    b"\"",
    b"\xff",
    b"\xc3",
    b"\xe2\x80\x93",
    b"week",
    b"[",
    b"]",
    b"(",
    b"/",
    b"+",
    b"||",
    b":",
    b"Montag",
    b"off",
    b"2020",
    b"\0",
];

/// Any bytes have a sentence, and each hint makes parts accepted that were refused.
#[test]
fn any_bytes_can_be_explained() {
    let mut random = hints::random(7);
    let mut proposals = 0;
    for _ in 0..10_000 {
        let sheet: Vec<u8> = (0..random(9)).flat_map(|_| PIECES[random(PIECES.len())].to_vec()).collect();
        for manner in [Manner::Edition1, Manner::Edition2, Manner::House] {
            let before = refused(manner, &sheet);
            for (_, explanation) in &before {
                assert!(!explanation.to_string().is_empty() && explanation.place <= sheet.len());
                for better in hints::each_proposal(&sheet, explanation) {
                    let after = refused(manner, &better).len();
                    assert!(after < before.len(), "{:?}: {explanation}", String::from_utf8_lossy(&sheet));
                    proposals += 1;
                }
            }
        }
    }
    assert!(proposals > 500, "{proposals}");
}
