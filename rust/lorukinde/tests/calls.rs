//! The calls at their edges: lengths, places, tables, notes; and what a refusal says.
mod common;
use common::{at, by_number, mark, marked, part_by_number, words};
use lorukinde::{
    note, parts, parts_in, read_feed, read_part, read_part_in, read_sheet, read_sheet_in, Head, LineAnswer, Manner, Meaning,
    Record, Refusal, Separator, State,
};

fn refusal(number: u32, place: usize) -> Refusal {
    Refusal { number, place }
}

#[test]
fn too_long() {
    let comment = |n: usize| format!("\"{}\"", "c".repeat(n - 2)).into_bytes();
    let mut table = marked(3);
    let reading = read_sheet(&comment(4096), &mut table).map(|r| r.records().to_vec());
    assert_eq!(reading, Ok(vec![Record::from_words(words([1, 0, 0, 1, 4094]))]));

    let long = comment(4097);
    let mut table = marked(3);
    assert_eq!(read_sheet(&long, &mut table), Err(refusal(1, 0)));
    for begin in [0, 1, 4097, usize::MAX] {
        let part = read_part(&long, begin, &mut table);
        assert_eq!((part.reading, part.next), (Err(refusal(1, 0)), None));
    }
    assert_eq!(table, marked(3));
    let all: Vec<_> = parts(&long).map(|part| (part.range, part.reading)).collect();
    assert_eq!(all, [(0..4097, Err(refusal(1, 0)))]);
}

#[test]
fn no_part_begins_there() {
    let sheet = b"Mo \"a;b\"; Tu";
    let mut table = marked(3);
    for begin in (0..20).chain([usize::MAX - 1, usize::MAX]) {
        let part = read_part(sheet, begin, &mut table);
        if begin == 0 || begin == 9 {
            assert!(part.reading.is_ok(), "{begin}");
            assert_eq!(part.next, (begin == 0).then_some(9));
        } else {
            assert_eq!((part.reading, part.next), (Err(refusal(2, 0)), None), "{begin}");
        }
    }
}

#[test]
fn tables_of_every_size() {
    for room in 0..6 {
        let mut table = marked(room);
        let reading = read_sheet(b" Mo;Tu", &mut table).map(|r| r.records().len());
        assert_eq!(reading, if room < 4 { Err(refusal(10, 0)) } else { Ok(4) });
        let written = if room < 4 { 0 } else { 4 };
        assert!(table[..written].iter().all(|r| *r != mark()) && table[written..].iter().all(|r| *r == mark()), "{room}");

        // Each part has the whole table, and its refusal has the place where the part begins.
        let mut table = marked(room);
        let part = read_part(b" Mo; Tu", 4, &mut table);
        assert_eq!(part.reading.map(|r| r.records().len()), if room < 2 { Err(refusal(10, 4)) } else { Ok(2) });
        assert!(table[if room < 2 { 0 } else { 2 }..].iter().all(|r| *r == mark()), "{room}");
    }
}

#[test]
fn few_and_many_records() {
    // Up to 7 records are kept while they are counted; a sheet with more is read again.
    for items in [1, 5, 6, 7, 8, 340, 341, 342, 343, 1198, 1199, 1200, 1201, 1365] {
        let sheet = vec!["Mo"; items].join(",").into_bytes();
        let mut expected = vec![Record::from_words(words([1, 0, 0, 0, 0, items as i32]))];
        expected.extend((0..items).map(|i| Record::from_words(at(3 * i, words([6, 1, 1, 0, 31, 31])))));
        let mut table = marked(items + 2);
        assert_eq!(read_sheet(&sheet, &mut table).map(|r| r.records().to_vec()), Ok(expected), "{items}");
        assert_eq!(table[items + 1], mark(), "{items}");

        let mut table = marked(items);
        assert_eq!(read_sheet(&sheet, &mut table), Err(refusal(10, 0)), "{items}");
        assert_eq!(table, marked(items), "{items}");

        let mut table = marked(items + 2);
        let slip = [&sheet[..sheet.len() - 1], b"x"].concat();
        assert_eq!(read_sheet(&slip, &mut table), Err(refusal(3, sheet.len() - 2)), "{items}");
        assert_eq!(table, marked(items + 2), "{items}");
    }
}

#[test]
fn parts_always_have_room() {
    let longest = b"Mo;".repeat(1365);
    let longest = &longest[..4094];
    let mut table = marked(2731);
    assert_eq!(read_sheet(longest, &mut table).map(|r| r.records().len()), Ok(2730));
    assert_eq!(table[2730], mark());
    assert_eq!(parts(longest).filter(|part| part.reading.as_ref().map(|r| r.records().len()) == Ok(2)).count(), 1365);
    let weeks = format!("week 1{}", ",2".repeat(2045));
    assert_eq!(weeks.len(), 4096);
    assert_eq!(parts(weeks.as_bytes()).map(|part| part.reading.map(|r| r.records().len())).collect::<Vec<_>>(), [Ok(2047)]);
}

/// The memory beside the lent table, and inside it after the records, keeps every byte.
#[test]
fn nothing_else_is_written() {
    let mut around = marked(9);
    let got = read_sheet(b"off", &mut around[3..6]).map(|r| r.records().to_vec());
    assert_eq!(got, Ok(vec![Record::from_words(words([1, 0, 1]))]));
    assert!(around.iter().enumerate().all(|(i, r)| (i == 3) == (*r != mark())));
}

#[test]
fn empty_slices() {
    assert_eq!(read_sheet(&[], &mut []), Err(refusal(11, 0)));
    assert_eq!(read_sheet(b"off", &mut []), Err(refusal(10, 0)));
    let part = read_part(&[], 0, &mut []);
    assert_eq!((part.reading, part.next), (Err(refusal(11, 0)), None));
    assert_eq!(read_part(&[], 1, &mut []).reading, Err(refusal(2, 0)));
    assert_eq!(parts(&[]).map(|part| (part.range, part.reading)).collect::<Vec<_>>(), [(0..0, Err(refusal(11, 0)))]);
    assert_eq!(note(&[], &[], &head(0, 0)), b"");
}

fn head(comment_start: i32, comment_length: i32) -> Head {
    Head { separator: Separator::Normal, state: State::Open, comment_start, comment_length, items: 0 }
}

#[test]
fn notes() {
    let sheet = b"Mo \"by appointment\"; Tu; We \"wave pool; sauna\", Th";
    let notes: Vec<Vec<u8>> = parts(sheet)
        .flat_map(|part| part.reading.unwrap().rules().map(|rule| rule.note(b"ask").to_vec()).collect::<Vec<_>>())
        .collect();
    assert_eq!(notes, [&b"by appointment"[..], b"ask", b"wave pool; sauna", b"ask"]);

    let mut table = marked(9);
    let reading = read_sheet(sheet, &mut table).unwrap();
    let comments: Vec<_> = reading.rules().map(|rule| rule.comment()).collect();
    assert_eq!(comments, [Some(&b"by appointment"[..]), None, Some(b"wave pool; sauna"), None]);
}

/// A note is the lent bytes themselves; numbers outside the sheet give the empty part at the standing note's start.
#[test]
fn notes_are_lent_bytes() {
    let (sheet, standing) = (&b"Mo \"abc\""[..], &b"standing"[..]);
    let found = note(sheet, standing, &head(4, 3));
    assert_eq!((found, found.as_ptr()), (&sheet[4..7], sheet[4..].as_ptr()));
    let found = note(sheet, standing, &head(i32::MAX, 0));
    assert_eq!((found, found.as_ptr()), (standing, standing.as_ptr()));
    for (start, length) in [(8, 1), (-1, 2), (0, -1), (1, i32::MAX), (i32::MIN, i32::MIN), (i32::MAX, i32::MAX)] {
        let found = note(sheet, standing, &head(start, length));
        assert_eq!((found.len(), found.as_ptr()), (0, standing.as_ptr()), "{start} {length}");
    }
}

#[test]
fn rules_and_items() {
    let mut table = marked(16);
    let reading = read_sheet(b"mo,PH 10:00-12:00,14:00+ off \"c\", 24/7 || OFF", &mut table).unwrap();
    assert_eq!(reading.warnings(), 2);
    let rules: Vec<_> = reading.rules().collect();
    let heads: Vec<_> = rules.iter().map(|rule| (rule.head.separator, rule.head.state, rule.items().count())).collect();
    assert_eq!(
        heads,
        [(Separator::Normal, State::Closed, 4), (Separator::Additional, State::Open, 0), (Separator::Fallback, State::Closed, 0)]
    );
    assert_eq!(rules.iter().map(|rule| 1 + rule.records().len()).sum::<usize>(), reading.records().len());
    assert_eq!(reading.placed().filter(|placed| matches!(placed.meaning, Meaning::Head(_))).count(), 3);
    assert_eq!(reading.placed().filter(|placed| matches!(placed.meaning, Meaning::Raw(_))).count(), 0);
}

#[test]
fn items_know_their_places() {
    let sheet = b" 2020 Jan,Feb 3 week  7 Mo,PH (sunset-1:00)+ ;  24/7 || 2021 2022 Mar";
    let mut table = marked(16);
    let reading = read_sheet(sheet, &mut table).unwrap();
    assert_eq!(reading.placed().map(|placed| placed.place).collect::<Vec<_>>(), [1, 1, 10, 22, 24, 27, 30, 48, 56, 56, 61]);
    let rules: Vec<_> =
        reading.rules().map(|rule| (rule.place, rule.items().map(|item| item.place).collect::<Vec<_>>())).collect();
    assert_eq!(rules, [(1, vec![1, 10, 22, 24, 27, 30]), (48, vec![]), (56, vec![56, 61])]);

    // In a part they count from the sheet's first byte.
    let mut table = marked(16);
    let part = read_part(sheet, 46, &mut table);
    assert_eq!(part.reading.unwrap().placed().map(|placed| placed.place).collect::<Vec<_>>(), [48, 56, 56, 61]);
}

/// The calls for C that take an edition's number: 1 is the calls without one, an edition that there is not is refused.
#[test]
fn editions_by_number() {
    let sheet = b"mo;10:00;Tu";
    for edition in [0, 3, u32::MAX] {
        let mut table = marked(9);
        assert_eq!(by_number(edition, &[b' '; 4097], &mut table), [Refusal::UNKNOWN_EDITION, 0, 0, 0]);
        assert_eq!(part_by_number(edition, sheet, 1, &mut table), [Refusal::UNKNOWN_EDITION, 0, 0, 0, 0, 1]);
        assert_eq!(table, marked(9));
    }
    let (mut plain, mut numbered) = (marked(9), marked(9));
    let records = read_sheet(b"mo;Tu", &mut plain).map(|r| r.records().len() as u32);
    assert_eq!((by_number(1, b"mo;Tu", &mut numbered), records), ([0, 0, 4, 1], Ok(4)));
    assert_eq!(plain, numbered);
    assert_eq!(part_by_number(1, sheet, 3, &mut numbered), [Refusal::POINT_IN_TIME, 3, 0, 0, 9, 0]);
}

#[test]
fn editions() {
    let sheet = b"10:00;Mo-Fr[1] +1 day";
    assert_eq!(Manner::default(), Manner::Edition1);
    let (mut one, mut in_one) = (marked(9), marked(9));
    assert_eq!(read_sheet(sheet, &mut one), Err(refusal(Refusal::POINT_IN_TIME, 0)));
    assert_eq!(read_sheet_in(Manner::Edition1, sheet, &mut in_one), Err(refusal(Refusal::POINT_IN_TIME, 0)));

    let mut table = marked(9);
    let reading = read_sheet_in(Manner::Edition2, sheet, &mut table).unwrap();
    let words_of: Vec<_> = reading.records().iter().map(Record::words).collect();
    let (first, second) = (words([1, 0, 0, 0, 0, 1]), at(6, words([1, 0, 0, 0, 0, 1])));
    assert_eq!(words_of, [first, words([8, 0, 600, 0, 600, -1, 0, 1]), second, at(6, words([6, 1, 5, 1, 1, 0]))]);
    assert!(matches!(reading.placed().nth(1).unwrap().meaning, Meaning::Span(span) if span.is_point && span.start == span.end));
    assert!(parts_in(Manner::Edition2, sheet).all(|part| part.reading.is_ok()));
}

#[test]
fn house_sheets() {
    let read = |sheet: &'static str| {
        let mut table = marked(9);
        let read = read_sheet_in(Manner::House, sheet.as_bytes(), &mut table).map(|r| r.records().to_vec());
        let mut plain = marked(9);
        if read.is_ok() {
            assert_eq!(read, read_sheet(sheet.as_bytes(), &mut plain).map(|r| r.records().to_vec()));
        } else {
            assert_eq!(table, marked(9), "{sheet}");
        }
        read.map(|records| records.len())
    };
    assert_eq!(read("Mo 10:00-12:00,12:00-24:00; Tu 9:00-10:00"), Ok(7));
    assert_eq!(read("Mo, Tu"), Err(refusal(Refusal::HOUSE_FORM, 4)));
    assert_eq!(read("Mo 10:00-12:00,14:00+"), Err(refusal(Refusal::HOUSE_FORM, 15)));
    assert_eq!(read("10:00-12:00,9:00-9:30"), Err(refusal(Refusal::HOUSE_ORDER, 12)));
    assert_eq!(read("10:00-9:00; 10:00+"), Err(refusal(Refusal::HOUSE_ORDER, 0)));

    // A later rule's slip comes before the profile; read alone, the first part breaks the profile.
    assert_eq!(read("10:00+; x"), Err(refusal(Refusal::NO_SHAPE, 8)));
    let refused: Vec<_> = parts_in(Manner::House, b"10:00+; x;Mo").map(|part| part.reading.err()).collect();
    assert_eq!(refused, [Some(refusal(Refusal::HOUSE_FORM, 0)), Some(refusal(Refusal::NO_SHAPE, 8)), None]);
    let mut table = marked(0);
    let part = read_part_in(Manner::House, b"Mo; Tu 10:00-9:00", 3, &mut table);
    assert_eq!((part.reading, part.next), (Err(refusal(Refusal::HOUSE_ORDER, 7)), None));
}

#[test]
fn feeds() {
    let unused = LineAnswer::from_words([7; 4]);
    let feed = b"Mo;Tu\nx\n2020 Dec 25-05 off \"c\"\n";
    let (mut answers, mut table) = ([unused; 5], marked(7));
    let read = read_feed(feed, &mut answers, &mut table).unwrap();
    let lines: Vec<_> = read.lines().collect();
    assert_eq!(lines.iter().map(|line| line.range.clone()).collect::<Vec<_>>(), [0..5, 6..7, 8..30]);
    assert_eq!(lines[1].reading, Err(refusal(Refusal::NO_SHAPE, 0)));
    let said: Vec<_> = lines[2].reading.as_ref().unwrap().rules().map(|rule| rule.to_string()).collect();
    assert_eq!(said, ["closed: 25 December 2020 to 5 January 2021, note \"c\""]);
    assert_eq!((read.answers().len(), read.records().len()), (3, 6));
    assert_eq!(read.answers()[2], LineAnswer::from_words([0, 0, 2, 0]));
    assert!(answers[3..].iter().all(|answer| *answer == unused) && table[6] == mark());

    // A line that does not fit uses no room, and the next is tried.
    let (mut answers, mut table) = ([unused; 3], marked(3));
    let read = read_feed(feed, &mut answers, &mut table).unwrap();
    let refused: Vec<_> = read.lines().map(|line| line.reading.err().map(|refusal| refusal.number)).collect();
    assert_eq!(refused, [Some(Refusal::NO_ROOM), Some(Refusal::NO_SHAPE), None]);
    assert_eq!(table[2], mark());

    let (mut answers, mut table) = ([unused; 2], marked(7));
    assert_eq!(read_feed(feed, &mut answers, &mut table), Err(refusal(Refusal::NO_ANSWER_ROOM, 0)));
    assert_eq!((answers, table), ([unused; 2], marked(7)));
    assert_eq!(read_feed(b"", &mut [], &mut []).unwrap().lines().count(), 0);
    assert_eq!(read_feed(b"\n", &mut [unused], &mut []).unwrap().lines().count(), 1);
    assert_eq!(std::mem::size_of::<LineAnswer>(), 16);
}

#[test]
fn refusals_in_plain_words() {
    let numbers: Vec<u32> = (1..=14).chain([19, 22, 23]).collect();
    let said: Vec<String> = numbers.iter().map(|number| refusal(*number, 12).to_string()).collect();
    let without_place =
        [Refusal::TOO_LONG, Refusal::NO_PART, Refusal::NO_ROOM, Refusal::NO_ANSWER_ROOM, Refusal::UNKNOWN_EDITION];
    for (i, text) in said.iter().enumerate() {
        assert_eq!(text.contains("12 bytes into the sheet"), !without_place.contains(&numbers[i]), "{text}");
        assert_eq!(text.contains("the item 12 bytes into"), (4..=9).contains(&numbers[i]), "{text}");
        assert!(!text.contains("no words for") && !said[..i].contains(text), "{text}");
    }
    assert_eq!(said[0], "the sheet is longer than 4,096 bytes");
    assert!(refusal(Refusal::NO_SHAPE, 0).to_string().starts_with("at the start of the sheet something is missing"));
    assert!(refusal(Refusal::POINT_IN_TIME, 1).to_string().contains("the item 1 byte into"));
    assert_eq!(refusal(Refusal::EMPTY_RULE, 3).to_string(), "the rule 3 bytes into the sheet is empty");
    assert!(refusal(Refusal::BROKEN_QUOTE, 5).to_string().contains("the quote 5 bytes into the sheet opens no comment"));
    assert!(refusal(Refusal::ILL_FORMED_COMMENT, 3).to_string().starts_with("the comment 3 bytes into the sheet"));
    assert!(refusal(99, 1).to_string().contains("the number 99"));
    let error: Box<dyn std::error::Error + Send + Sync> = Box::new(refusal(6, 0));
    assert!(error.to_string().contains("run backwards"));
}

/// Any words at all have a meaning and can be shown; those that no reading writes come back as they are.
#[test]
fn any_words_can_be_decoded() {
    let odd = [i32::MIN, -8, -1, 0, 1, 3, 8, 13, 32, 256, 2880, i32::MAX];
    for kind in -1..=10 {
        for (i, a) in odd.iter().enumerate() {
            for b in &odd[i % 3..] {
                let mut all = [*a; 16];
                all[0] = kind;
                all.iter_mut().skip(2).step_by(2).for_each(|word| *word = *b);
                let placed = Record::from_words(all).placed();
                assert!(!placed.to_string().is_empty());
                assert!(matches!(placed.meaning, Meaning::Raw(same) if same == all) || (1..=8).contains(&kind));
                assert!(all[15] >= 0 || placed.meaning == Meaning::Raw(all));
            }
        }
    }
    let late = words([8, 0, i32::MAX, 0, i32::MAX, -1, 0]);
    assert_eq!(Record::from_words(late).placed().meaning, Meaning::Raw(late));
    assert_eq!(Record::default().placed().meaning, Meaning::Raw([0; 16]));
    assert_eq!(std::mem::size_of::<Record>(), 64);
}

#[test]
fn from_several_threads() {
    let threads: Vec<_> = (0..4)
        .map(|_| std::thread::spawn(|| (0..50).all(|_| parts(b"Mo;x;Tu").filter(|part| part.reading.is_ok()).count() == 2)))
        .collect();
    assert!(threads.into_iter().all(|thread| thread.join().unwrap()));
}
