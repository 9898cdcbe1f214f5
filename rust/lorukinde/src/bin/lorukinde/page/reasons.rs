//! Why a rule is undecided on some days: the items of which it is not decided here which days they mean.
use lorukinde::{Date, Dates, Day, HolidayKind, Meaning, Months, Rule, Weekdays};

use super::texts::{fill, Reasons, Texts};

/// One sentence for each item of the rule that is never decided.
pub fn of_rule(texts: &Texts, rule: &Rule<'_>) -> Vec<String> {
    let reason = |item: &Meaning| Some(fill(of_item(&texts.reasons, item)?, &[&item.said(texts.language)]));
    rule.items().filter_map(|item| reason(&item.meaning)).collect()
}

/// The reason why an item is undecided, on whatever day; None if it is decided.
fn of_item(reasons: &Reasons, item: &Meaning) -> Option<&'static str> {
    match item {
        Meaning::Holiday(holiday) if holiday.kind == HolidayKind::Public => Some(reasons.public_holiday),
        Meaning::Holiday(_) => Some(reasons.school_holiday),
        Meaning::Dates(dates) => of_dates(reasons, dates),
        Meaning::Months(months) => runs_backwards(months).then_some(reasons.months_backwards),
        Meaning::Weekdays(weekdays) => of_weekdays(reasons, weekdays),
        Meaning::Years(_) | Meaning::Weeks(_) | Meaning::Span(_) | Meaning::Head(_) | Meaning::Raw(_) => None,
    }
}

fn of_dates(reasons: &Reasons, dates: &Dates) -> Option<&'static str> {
    let ends = [dates.start, dates.end];
    let is_moved = |date: &Date| date.day_offset != 0 || date.to_weekday.is_some();
    if ends.iter().any(|date| date.day == Day::Easter) {
        Some(reasons.easter)
    } else if ends.iter().any(|date| matches!(date.day, Day::Nth { .. })) {
        Some(reasons.nth_weekday)
    } else if ends.iter().any(is_moved) {
        Some(reasons.offset)
    } else if dates.start.year.is_some() != dates.end.year.is_some() {
        Some(reasons.year_on_one_end)
    } else {
        None
    }
}

fn runs_backwards(months: &Months) -> bool {
    months.year.is_some() && months.last.number() < months.first.number()
}

fn of_weekdays(reasons: &Reasons, weekdays: &Weekdays) -> Option<&'static str> {
    if !weekdays.is_every_week() {
        Some(reasons.nth_weekday)
    } else if weekdays.day_offset != 0 {
        Some(reasons.offset)
    } else {
        None
    }
}

#[cfg(test)]
mod tests {
    use super::super::days::{self, Touch};
    use super::super::texts::ENGLISH;
    use super::super::year::Year;
    use super::*;
    use lorukinde::{parts_in, Manner, Record};

    /// An item alone is undecided on every day if there is a reason for it, and else on none: by what the library says of each item of
    /// a list of sheets.
    #[test]
    fn an_undecided_item_has_a_reason() {
        let list = std::fs::read(concat!(env!("CARGO_MANIFEST_DIR"), "/../../tools/oracle/sample.txt")).unwrap();
        let mut seen = [0; 2];
        for sheet in list.split(|byte| *byte == b'\n') {
            for reading in parts_in(Manner::Edition2, sheet).filter_map(|part| part.reading.ok()) {
                for item in reading.rules().flat_map(|rule| rule.records()) {
                    let reason = of_item(&ENGLISH.reasons, &item.placed().meaning);
                    let touches = days::touches(&[head_of_one(), *item], 0, Year(2021)).unwrap();
                    let undecided = touches.iter().filter(|touch| **touch == Touch::Undecided).count();
                    assert_eq!(undecided, if reason.is_some() { touches.len() } else { 0 }, "{}", item.placed());
                    seen[usize::from(reason.is_some())] += 1;
                }
            }
        }
        assert!(seen.iter().all(|count| *count > 100), "{seen:?}");
    }

    /// The head of an open rule with one item.
    fn head_of_one() -> Record {
        let mut words = [0; 16];
        (words[0], words[5]) = (1, 1);
        Record::from_words(words)
    }
}
