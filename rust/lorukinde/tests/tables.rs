//! What is asked of a table: which days a rule touches, and which months it can touch.
mod common;
use common::lines_of;
use lorukinde::{
    months, parts, read_part, read_sheet, read_sheet_in, renew, rule_days, rule_months, Entry, Manner, Record, RecordedDay,
    TableRefusal, Touch,
};

const DAYS_OF_A_MONTH: u32 = 31;

fn numbers(text: &str) -> Vec<u32> {
    text.split('-').map(|digits| digits.parse().unwrap()).collect()
}

fn day(text: &str) -> RecordedDay {
    let numbers = numbers(text);
    RecordedDay::new(numbers[0], numbers[1], numbers[2])
}

/// The day after one, by asking which is known.
fn after(day: RecordedDay) -> RecordedDay {
    let [year, month, number] = day.numbers();
    let next = [(year, month, number + 1), (year, month + 1, 1), (year + 1, 1, 1)];
    next.map(|(y, m, d)| RecordedDay::new(y, m, d)).into_iter().find(|next| next.is_known()).unwrap()
}

/// Days as a case has them: `2024-01-05`, or `2024-01-05+9` for ten days from there on.
fn days_of(text: &str) -> Vec<RecordedDay> {
    let mut days = Vec::new();
    for word in text.split_whitespace() {
        let (first, more) = word.split_once('+').unwrap_or((word, "0"));
        days.push(day(first));
        for _ in 0..more.parse::<u32>().unwrap() {
            days.push(after(days[days.len() - 1]));
        }
    }
    days
}

fn table_of(manner: Manner, sheet: &[u8]) -> Vec<Record> {
    let mut table = vec![Record::EMPTY; 4096];
    read_sheet_in(manner, sheet, &mut table).unwrap().records().to_vec()
}

fn digit(touch: &Touch) -> char {
    match touch {
        Touch::No => '0',
        Touch::Yes => '1',
        Touch::Undecided => '2',
    }
}

/// A case's answer, as the second reader writes it.
fn answer(case: &str) -> String {
    let fields: Vec<_> = case.split('\t').collect();
    let manner = if fields[1] == "2" { Manner::Edition2 } else { Manner::Edition1 };
    let table = table_of(manner, fields[2].as_bytes());
    if fields[0] == "months" {
        let entries = months(&table).unwrap();
        return entries.iter().map(|entry| format!("{}:{}", entry.head(), entry.months())).collect::<Vec<_>>().join(" ");
    }
    let days = days_of(fields[4]);
    let mut answers = vec![Touch::No; days.len()];
    match rule_days(&table, fields[3].parse().unwrap(), &days, &mut answers) {
        Ok(()) => format!("0 {}", answers.iter().map(digit).collect::<String>()).trim_end().to_string(),
        Err(refusal) => refusal.number.to_string(),
    }
}

#[test]
fn the_cases_of_days_and_months() {
    let cases = lines_of("tools/cases_days.txt").unwrap();
    let answers = lines_of("tools/cases_days.out").unwrap();
    assert_eq!(cases.len(), answers.len());
    for (case, expected) in cases.iter().zip(answers) {
        let case = String::from_utf8(case.clone()).unwrap();
        assert_eq!(answer(&case), String::from_utf8(expected).unwrap(), "{case}");
    }
    assert!(cases.len() > 5000);
}

#[test]
fn every_rule_that_touches_a_day_can_touch_its_month() {
    let cases = lines_of("tools/cases_days.txt").unwrap();
    let days: Vec<_> = (1..=12).flat_map(|m| [1, 15, 28].map(|d| RecordedDay::new(2024, m, d))).collect();
    let mut touched = 0;
    for case in cases.iter().filter(|case| case.starts_with(b"months")) {
        let fields: Vec<_> = case.split(|byte| *byte == b'\t').collect();
        let manner = if fields[1] == b"2" { Manner::Edition2 } else { Manner::Edition1 };
        let table = table_of(manner, fields[2]);
        for (rule, entry) in months(&table).unwrap().iter().enumerate() {
            let mut answers = vec![Touch::No; days.len()];
            rule_days(&table, rule, &days, &mut answers).unwrap();
            for (day, _) in days.iter().zip(&answers).filter(|(_, answer)| **answer == Touch::Yes) {
                assert!(entry.can_touch(day.numbers()[1]), "{day} {}", String::from_utf8_lossy(fields[2]));
                touched += 1;
            }
        }
    }
    assert!(touched > 1000);
}

#[test]
fn refusals_in_their_order_write_nothing() {
    let table = table_of(Manner::Edition1, b"Mo; Tu");
    let good = [day("2024-01-01"), day("2024-01-02")];
    let bad = [day("2024-01-01"), day("2023-02-29")];
    let mut two = [Touch::Undecided; 2];
    let mut one = [Touch::Undecided; 1];
    let refused = |number| Err(TableRefusal { number });
    assert_eq!(rule_days(&table[1..], 9, &bad, &mut one), refused(TableRefusal::NO_FIT));
    assert_eq!(rule_days(&[], 0, &good, &mut two), refused(TableRefusal::NO_FIT));
    assert_eq!(rule_days(&table, 2, &good, &mut two), refused(TableRefusal::NO_DAYS));
    assert_eq!(rule_days(&table, 2, &[], &mut two), refused(TableRefusal::NO_DAYS));
    assert_eq!(rule_days(&table, 0, &bad, &mut one), refused(TableRefusal::NO_DAYS));
    assert_eq!(rule_days(&table, 0, &good, &mut one), refused(TableRefusal::FEW_ANSWERS));
    assert_eq!((one, two), ([Touch::Undecided; 1], [Touch::Undecided; 2]));
    let mut three = [Touch::Undecided; 3];
    assert_eq!(rule_days(&table, 1, &good, &mut three), Ok(()));
    assert_eq!(three, [Touch::No, Touch::Yes, Touch::Undecided]);
    let mut list = [Entry::default(); 1];
    assert_eq!(rule_months(&table[1..], &mut list), refused(TableRefusal::NO_FIT));
    assert_eq!(rule_months(&table, &mut list), refused(TableRefusal::SHORT_LIST));
    assert_eq!(renew(&mut list, 2, 0, 2, &table), refused(TableRefusal::SHORT_LIST));
    assert_eq!(renew(&mut list, 1, usize::MAX, 2, &table), refused(TableRefusal::SHORT_LIST));
    assert_eq!(list, [Entry::default(); 1]);
}

#[test]
fn a_rule_of_a_reading_touches() {
    let mut table = vec![Record::EMPTY; 64];
    let reading = read_sheet(b"Jan; Mo,PH off", &mut table).unwrap();
    let touches: Vec<_> = reading.rules().map(|rule| rule.touches(day("2024-02-06")).unwrap()).collect();
    assert_eq!(touches, [Touch::No, Touch::Undecided]);
    assert!(reading.rules().all(|rule| rule.touches(day("2023-02-29")).is_err()));
}

/// Numbers that look random, the same in each run.
struct Dice(u64);

impl Dice {
    fn below(&mut self, n: usize) -> usize {
        self.0 = self.0.wrapping_mul(6364136223846793005).wrapping_add(1442695040888963407);
        (self.0 >> 33) as usize % n
    }
}

#[test]
fn renewing_is_building_afresh() {
    const ROUNDS: usize = 50_000;
    let cases = lines_of("tools/cases_days.txt").unwrap();
    let sheets =
        cases.iter().filter(|case| case.starts_with(b"months\t1")).map(|case| String::from_utf8(case[9..].to_vec()).unwrap());
    let rules: Vec<_> =
        sheets.flat_map(|sheet| sheet.split(';').map(|rule| rule.trim().to_string()).collect::<Vec<_>>()).collect();
    let mut dice = Dice(11);
    let mut renewed = 0;
    let (mut table, mut old, mut new) = (vec![Record::EMPTY; 512], vec![Record::EMPTY; 512], vec![Record::EMPTY; 512]);
    while renewed < ROUNDS {
        // Parts of one to three rules, parted by `, ` or `||` within a part.
        let part = |dice: &mut Dice, count: usize| {
            let picked: Vec<_> = (0..count).map(|_| rules[dice.below(rules.len())].as_str()).collect();
            picked.join([" || ", ", "][dice.below(2)])
        };
        let counts: Vec<_> = (0..1 + dice.below(4)).map(|_| 1 + dice.below(3)).collect();
        let mut texts: Vec<_> = counts.iter().map(|count| part(&mut dice, *count)).collect();
        let at = dice.below(texts.len());
        let before = texts.join(";");
        let begin = texts[..at].iter().map(|text| text.len() + 1).sum::<usize>();
        let exchanged = part(&mut dice, counts[at]);
        let gone = std::mem::replace(&mut texts[at], exchanged);
        let after = texts.join(";");
        let (whole, was) = (read_sheet(before.as_bytes(), &mut table), read_sheet(gone.as_bytes(), &mut old));
        let (whole, was) = match (whole, was) {
            (Ok(whole), Ok(was)) => (whole, was),
            _ => continue,
        };
        let mut list = months(whole.records()).unwrap();
        list.push(Entry::default());
        let rules_in_all = list.len() - 1;
        let first = parts(before.as_bytes()).take(at).map(|part| part.reading.unwrap().rules().count()).sum();
        let now = match read_part(after.as_bytes(), begin, &mut new).reading {
            Ok(now) if now.rules().count() == was.rules().count() => now,
            _ => continue,
        };
        renew(&mut list, rules_in_all, first, was.records().len(), now.records()).unwrap();
        assert_eq!(list.pop(), Some(Entry::default()));
        let mut fresh = vec![Record::EMPTY; 512];
        let afresh = months(read_sheet(after.as_bytes(), &mut fresh).unwrap().records()).unwrap();
        assert_eq!(list, afresh, "{before} -> {after}");
        renewed += 1;
    }
}

#[test]
fn days_of_the_calendar() {
    let mut known = 0;
    for month in 0..=13 {
        for number in 0..=DAYS_OF_A_MONTH + 1 {
            known += usize::from(RecordedDay::new(2023, month, number).is_known());
        }
    }
    assert_eq!(known, 365);
    assert!(day("1900-01-01").is_known() && day("9999-12-31").is_known());
    assert!(
        !day("1899-12-31").is_known()
            && !RecordedDay::new(10000, 1, 1).is_known()
            && !RecordedDay::new(u32::MAX, 1, 1).is_known()
    );
}
