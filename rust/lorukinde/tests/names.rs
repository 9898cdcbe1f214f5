//! Names with unusual capitals, and places as people count them.
mod common;
use common::lines_of;
use lorukinde::{characters, parts, parts_in, shown, unusual_names, Character, Manner, Position, Refusal, UnusualName};

/// The sheets of the repository's lists, with the manner in which each list is read.
fn listed() -> Vec<(Manner, Vec<u8>)> {
    let cases = |path: &str| -> Vec<Vec<u8>> {
        let cases = lines_of(path).unwrap().into_iter();
        cases.filter(|case| b"SPAL".contains(&case[4])).map(|case| case[6..].to_vec()).collect()
    };
    let in_1 = cases("crates/cases/stdin").into_iter().chain(lines_of("tools/oracle/sample.txt").unwrap());
    let in_2 = cases("tools/cases_editions.txt").into_iter();
    in_1.map(|sheet| (Manner::Edition1, sheet)).chain(in_2.map(|sheet| (Manner::Edition2, sheet))).collect()
}

/// In every accepted part as many names are found as the reading counts.
#[test]
fn as_many_as_the_reading_counts() {
    let (mut accepted, mut names) = (0, 0);
    for (manner, sheet) in listed() {
        for part in parts_in(manner, &sheet) {
            if let Ok(reading) = part.reading {
                let found = unusual_names(&sheet, part.range).count();
                assert_eq!(found, reading.warnings() as usize, "{:?}", String::from_utf8_lossy(&sheet));
                accepted += 1;
                names += found;
            }
        }
    }
    println!("{accepted} accepted parts, {names} names with unusual capitals");
    assert!(accepted > 5000 && names > 500);
}

#[test]
fn where_they_stand_and_how_they_are_written() {
    let sheet = b"mo-FR \"mo\"; jAN 5 OFF; PH,Sa (SUNSET-1:00)-Dusk Closed \"tu\"; week 1; Easter +1 day";
    let found: Vec<_> = parts(sheet).flat_map(|part| unusual_names(sheet, part.range).collect::<Vec<_>>()).collect();
    let name = |place, found, usual| UnusualName { place, found, usual };
    let expected = [
        name(0, "mo", "Mo"),
        name(3, "FR", "Fr"),
        name(12, "jAN", "Jan"),
        name(18, "OFF", "off"),
        name(30, "SUNSET", "sunset"),
        name(43, "Dusk", "dusk"),
        name(48, "Closed", "closed"),
        name(69, "Easter", "easter"),
    ];
    assert_eq!(found, expected);
}

#[test]
fn places_are_counted_in_characters() {
    let text = "ä€\u{1d11e}\nMo–x".as_bytes();
    let at = |place| (Position::of(text, place).line, Position::of(text, place).column);
    assert_eq!(
        [at(0), at(2), at(5), at(9), at(10), at(12), at(15), at(16)],
        [(1, 1), (1, 2), (1, 3), (1, 4), (2, 1), (2, 3), (2, 4), (2, 5)]
    );
    assert_eq!(at(usize::MAX), (2, 5));
    assert_eq!(Position::of(b"\xe2\x82\xffx", 3), Position { line: 1, column: 4 });
    assert_eq!(Position::of(b"", 0), Position { line: 1, column: 1 });
    let refusal = Refusal { number: Refusal::NO_SHAPE, place: 15 };
    assert_eq!(refusal.position(text), Position { line: 2, column: 4 });
}

/// Each byte that is no letter is one character; the others are the letters that the standard library finds.
#[test]
fn characters_of_any_bytes() {
    let some: Vec<_> = characters(b"a\xc3\xa4\xe2\x82\xff").collect();
    let ill = Character::IllFormed;
    assert_eq!(some, [(0, Character::Letter('a')), (1, Character::Letter('ä')), (3, ill(0xe2)), (4, ill(0x82)), (5, ill(0xff))]);
    assert_eq!(shown(b"a\xe2\x82\xff"), "a\u{fffd}\u{fffd}\u{fffd}");
    let text = "\u{0}\u{7f}\u{80}\u{7ff}\u{800}\u{d7ff}\u{e000}\u{ffff}\u{10000}\u{10ffff}";
    assert!(characters(text.as_bytes()).eq(text.char_indices().map(|(place, letter)| (place, Character::Letter(letter)))));
}
