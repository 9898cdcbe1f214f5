//! Slips as operators make them, each with the sentence that it gets; and that what a hint says to write helps.
mod common;
use common::{bytes_of, lines_of};
use lorukinde::{explain, parts_in, Explanation, Manner, Refusal};

fn manner(name: &str) -> Manner {
    match name {
        "1" => Manner::Edition1,
        "2" => Manner::Edition2,
        "house" => Manner::House,
        other => panic!("no manner {other}"),
    }
}

/// The refused parts of a sheet, each with its explanation.
fn refused(manner: Manner, sheet: &[u8]) -> Vec<(Refusal, Explanation)> {
    let refused = parts_in(manner, sheet).filter_map(|part| Some((part.range, part.reading.err()?)));
    refused.map(|(range, refusal)| (refusal, explain(manner, sheet, range, &refusal))).collect()
}

/// What each proposal of the hint for the nth refused part makes of the sheet has fewer refused parts, or the same ones but that
/// this one is refused later.
fn hold_hint(manner: Manner, sheet: &[u8], before: &[(Refusal, Explanation)], n: usize) -> usize {
    let (refusal, explanation) = &before[n];
    let hint = match &explanation.hint {
        Some(hint) => hint,
        None => return 0,
    };
    for write in &hint.write {
        let better = [&sheet[..hint.range.start], write.as_bytes(), &sheet[hint.range.end..]].concat();
        let after: Vec<Refusal> = refused(manner, &better).into_iter().map(|(refusal, _)| refusal).collect();
        let from_end = |place: usize, length: usize| length - place;
        let is_later =
            after.len() == before.len() && from_end(after[n].place, better.len()) < from_end(refusal.place, sheet.len());
        assert!(after.len() < before.len() || is_later, "{:?}: {explanation}", String::from_utf8_lossy(sheet));
    }
    hint.write.len()
}

/// tests/slips.txt: manner, sheet, number and place of its first refused part, sentence, parted by byte 9. Its first lines say how it
/// was made.
#[test]
fn each_slip_has_its_sentence() {
    let cases = lines_of("rust/lorukinde/tests/slips.txt").unwrap();
    let (mut slips, mut proposals) = (0, 0);
    for case in cases.iter().filter(|case| !case.starts_with(b"#")) {
        let case = String::from_utf8(case.clone()).unwrap();
        let fields: Vec<&str> = case.split('\t').collect();
        let (manner, sheet) = (manner(fields[0]), bytes_of(fields[1]));
        let found = refused(manner, &sheet);
        let (refusal, explanation) = found.first().unwrap_or_else(|| panic!("accepted: {case}"));
        let number_and_place = format!("{}\t{}", refusal.number, refusal.place);
        assert_eq!((number_and_place, explanation.to_string().as_str()), (fields[2..4].join("\t"), fields[4]), "{}", fields[1]);
        slips += 1;
        proposals += hold_hint(manner, &sheet, &found, 0);
    }
    println!("{slips} slips, {proposals} proposals");
    assert!(slips >= 60 && proposals >= 60);
}

/// Sheets of the lists, each with one byte damaged: every refused part has a sentence that says what was expected, or which number
/// is out of range, and what its hint says to write helps.
#[test]
fn damaged_sheets() {
    const EVERY: usize = 7; // of the sheets in the lists
    const DAMAGES: [&[u8]; 12] = [b"", b" ", b".", b"-", b",", b";", b":", b"\"", b"0", b"x", b"\xe2\x80\x93", b"\xff"];
    let sheets = lines_of("tools/oracle/sample.txt").unwrap();
    let (mut damaged, mut found, mut proposals) = (0, 0, 0);
    for (i, sheet) in sheets[1..].iter().enumerate().filter(|(i, sheet)| i % EVERY == 0 && sheet.len() < 60) {
        for at in 0..sheet.len() {
            let damage = DAMAGES[(i / EVERY + at) % DAMAGES.len()];
            let sheet = [&sheet[..at], damage, &sheet[at + 1..]].concat();
            let before = refused(Manner::Edition1, &sheet);
            for (n, (refusal, explanation)) in before.iter().enumerate() {
                let says_what = match refusal.number {
                    Refusal::NO_SHAPE => explanation.wrong.contains(": expected "),
                    Refusal::RANGE => explanation.wrong.contains("` is out of range: "),
                    _ => true,
                };
                assert!(says_what, "{:?}: {explanation}", String::from_utf8_lossy(&sheet));
                proposals += hold_hint(Manner::Edition1, &sheet, &before, n);
            }
            damaged += 1;
            found += before.len();
        }
    }
    println!("{damaged} damaged sheets, {found} refused parts, {proposals} proposals");
    assert!(found > 3000 && proposals > 500);
}

/// What random sheets are made of.
const PIECES: [&[u8]; 24] = [
    b"Mo",
    b"-",
    b" ",
    b",",
    b";",
    b"10:00",
    b"9",
    b"25.12.2020",
    b"\"",
    b"\xff",
    b"\xc3",
    b"\xe2\x80\x93",
    b"week",
    b"[",
    b"]",
    b"(",
    b"/",
    b"+",
    b"||",
    b":",
    b"Montag",
    b"off",
    b"2020",
    b"\0",
];

/// Any bytes have a sentence.
#[test]
fn any_bytes_can_be_explained() {
    let mut state = 7u64;
    let mut random = |below: usize| {
        state = state.wrapping_mul(6364136223846793005).wrapping_add(1442695040888963407);
        (state >> 33) as usize % below
    };
    let mut proposals = 0;
    for _ in 0..20_000 {
        let sheet: Vec<u8> = (0..random(9)).flat_map(|_| PIECES[random(PIECES.len())].to_vec()).collect();
        for manner in [Manner::Edition1, Manner::Edition2, Manner::House] {
            let before = refused(manner, &sheet);
            assert!(before.iter().all(|(_, explanation)| !explanation.to_string().is_empty()));
            if manner != Manner::House {
                proposals += (0..before.len()).map(|n| hold_hint(manner, &sheet, &before, n)).sum::<usize>();
            }
        }
    }
    assert!(proposals > 1000, "{proposals}");
}
