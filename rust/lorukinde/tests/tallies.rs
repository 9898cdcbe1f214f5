//! Tallies: the repository's cases with the answers of its second reader, and what tallies and lists of sheets owe each other.
mod common;
use common::lines_of;
use lorukinde::{read_sheet, read_sheet_in, Manner, Record, Refusal, Tally, COUNTS};

/// A case: a tally, as place=count for what is not 0; an answer's four numbers; its table, records parted by `/` without the zeros at
/// their end, and with a `.` at the end the last one not filled up. Or: a tally; `join`; a tally. Each stands before its answer: the
/// number, and the counts afterwards.
#[test]
fn the_cases_of_tallies() {
    let cases = lines_of("tools/cases_tallies.txt").unwrap();
    let answers = lines_of("tools/cases_tallies.out").unwrap();
    assert_eq!(answers.len(), 2 * cases.len());
    for (case, pair) in cases.iter().zip(answers.chunks(2)) {
        let text = std::str::from_utf8(case).unwrap();
        let Some(got) = answered(text) else { continue };
        assert_eq!([case, got.as_bytes()], [&pair[0], &pair[1][..]], "{text}");
    }
    assert!(cases.len() > 2000);
}

/// What is answered; None for a table with words left over, which no list of records has.
fn answered(case: &str) -> Option<String> {
    let [tally, what, rest] = case.split(';').collect::<Vec<_>>().try_into().ok()?;
    let mut tally = tally_of(tally);
    let done = if what == "join" {
        tally.join(&tally_of(rest))
    } else {
        let numbers: Vec<u32> = what.split(' ').map(|word| word.parse().unwrap()).collect();
        tally.add_answer(numbers.try_into().unwrap(), &table_of(rest)?)
    };
    let number = done.map_or_else(|refusal: Refusal| refusal.number, |()| 0);
    let counts = tally.counts().into_iter().enumerate().filter(|(_, count)| *count > 0);
    Some(counts.fold(number.to_string(), |text, (place, count)| format!("{text} {place}={count}")))
}

fn tally_of(text: &str) -> Tally {
    let mut counts = [0; COUNTS];
    for word in text.split_whitespace() {
        let (place, count) = word.split_once('=').unwrap();
        counts[place.parse::<usize>().unwrap()] = count.parse().unwrap();
    }
    Tally::from_counts(counts)
}

fn table_of(text: &str) -> Option<Vec<Record>> {
    if text.ends_with('.') {
        return None;
    }
    let records = text.split('/').filter(|record| !record.is_empty());
    Some(records.map(record_of).collect())
}

fn record_of(text: &str) -> Record {
    let mut words = [0; 16];
    for (word, number) in words.iter_mut().zip(text.split_whitespace()) {
        *word = number.parse().unwrap();
    }
    Record::from_words(words)
}

const SHEETS: [&[u8]; 8] = [
    b"Mo-Fr 09:00-18:00",
    b"sa[1,-1] 10:00-12:00; PH off",
    b"2020-2024/2 week 1-53/2 Jan Mo[1] +1 day-Feb easter",
    b"Dec 24-26 off \"x\"",
    b"10:00",
    b"",
    b"Mo-Fr[1] 10:00; Tu 9:00-8:00",
    b"sunrise-sunset/1:30, 2021 Dec 25-05",
];

/// Every reading's answer is taken in, and is counted where the header says.
#[test]
fn what_is_read_is_taken_in() {
    let mut table = [Record::EMPTY; 64];
    for manner in [Manner::Edition1, Manner::Edition2, Manner::House] {
        let mut tally = Tally::default();
        let (mut accepted, mut records) = (0, 0);
        for sheet in SHEETS {
            let answer = read_sheet_in(manner, sheet, &mut table);
            accepted += u32::from(answer.is_ok());
            records += answer.as_ref().map_or(0, |reading| reading.records().iter().filter(|r| r.words()[0] != 1).count());
            tally.add(&answer).unwrap();
        }
        assert_eq!((tally.read(), tally.accepted()), (SHEETS.len() as u32, accepted));
        assert_eq!(u64::from(tally.accepted()) + tally.refused(), u64::from(tally.read()));
        assert_eq!(tally.items().map(|(_, count)| count as usize).sum::<usize>(), records);
    }
}

/// Joined in any order and grouping, tallies of single sheets are the tally of all.
#[test]
fn joining_is_one_list_after_the_other() {
    let mut table = [Record::EMPTY; 64];
    let mut all = Tally::default();
    let mut single = Vec::new();
    for sheet in SHEETS {
        let answer = read_sheet(sheet, &mut table);
        let mut one = Tally::default();
        one.add(&answer).unwrap();
        all.add(&answer).unwrap();
        single.push(one);
    }
    let sum: Result<Tally, Refusal> = single.iter().sum();
    assert_eq!(sum, Ok(all));
    single.reverse();
    let halves: Vec<Tally> = single.chunks(3).map(|some| some.iter().sum::<Result<Tally, _>>().unwrap()).collect();
    assert_eq!(halves.iter().sum::<Result<Tally, _>>(), Ok(all));
}

#[test]
fn a_full_count_refuses_and_stays() {
    let mut counts = [0; COUNTS];
    counts[17] = u32::MAX;
    let (full, mut one) = (Tally::from_counts(counts), Tally::default());
    let before = one;
    one.join(&full).unwrap();
    assert_eq!(one, full);
    let refusal = Refusal { number: Refusal::COUNT_FULL, place: 0 };
    counts[17] = 1;
    assert_eq!(one.join(&Tally::from_counts(counts)), Err(refusal));
    assert_eq!(one, full);
    assert_eq!(one.add_answer([2, 0, 0, 0], &[]), Err(Refusal { number: Refusal::NO_FIT, place: 0 }));
    assert_ne!(one, before);
}
