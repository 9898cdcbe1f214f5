//! The page's own sentences, one table a language. `{}` is filled in, in order.
mod de;
mod en;
mod fr;
mod nl;

use std::fmt::Display;

use lorukinde::{Language, Manner, State};

use super::year::Day;

use de::GERMAN;
pub use en::ENGLISH;
use fr::FRENCH;
use nl::DUTCH;

/// For one, and for another number.
type Counted = [&'static str; 2];

pub struct Texts {
    pub language: Language,
    /// Its code, for the attribute `lang`.
    pub code: &'static str,
    pub title: &'static str,
    pub by_edition_1: &'static str,
    pub by_edition_2: &'static str,
    pub by_the_house: &'static str,
    pub each_alone: &'static str,
    pub how_rules_meet: &'static str,
    pub sheets: Counted,
    pub no_sheet: &'static str,
    pub all_read: &'static str,
    pub some_refused: Counted,
    pub list_of_refused: &'static str,
    pub list: &'static str,
    pub unread_input: &'static str,
    pub sheet: &'static str,
    pub line: &'static str,
    pub standard_input: &'static str,
    pub argument: &'static str,
    pub empty_sheet: &'static str,
    pub cut_sheet: &'static str,
    pub refused_parts: Counted,
    pub refused: &'static str,
    pub in_edition_2: &'static str,
    pub remark: &'static str,
    pub unusual: &'static str,
    pub rule: &'static str,
    pub first_day: &'static str,
    pub last_day: &'static str,
    pub only_day: &'static str,
    pub every_year: &'static str,
    pub no_such_day: &'static str,
    pub applies: Counted,
    pub applies_never: &'static str,
    pub applies_always: &'static str,
    pub undecided: Counted,
    pub undecided_always: &'static str,
    pub many_stretches: &'static str,
    pub days_unknown: &'static str,
    pub calendar: &'static str,
    pub same_calendar: &'static str,
    pub key_yes: &'static str,
    pub key_no: &'static str,
    pub states: [&'static str; 3],
    pub undecided_day: &'static str,
    pub week: &'static str,
    pub week_short: &'static str,
    pub weekdays: [&'static str; 7],
    pub weekdays_short: [&'static str; 7],
    pub months: [&'static str; 12],
    pub first_of_month: &'static str,
    pub day_of_month: &'static str,
    pub day_and_month: &'static str,
    pub weekday_and_date: &'static str,
    pub days_of_one_month: &'static str,
    pub days: &'static str,
    pub reasons: Reasons,
}

/// Why it is not decided here whether a day is touched; what is filled in is the item in words.
pub struct Reasons {
    pub public_holiday: &'static str,
    pub school_holiday: &'static str,
    pub easter: &'static str,
    pub nth_weekday: &'static str,
    pub offset: &'static str,
    pub year_on_one_end: &'static str,
    pub months_backwards: &'static str,
}

/// A sentence with what is to stand in it.
pub fn fill(sentence: &str, with: &[&dyn Display]) -> String {
    let mut pieces = sentence.split("{}");
    let mut filled = pieces.next().unwrap_or_default().to_string();
    for (value, piece) in with.iter().zip(pieces) {
        filled += &format!("{value}{piece}");
    }
    filled
}

pub fn counted(sentences: &Counted, n: usize, with: &[&dyn Display]) -> String {
    fill(sentences[usize::from(n != 1)], with)
}

impl Texts {
    pub fn of(language: Language) -> &'static Texts {
        match language {
            Language::English => &ENGLISH,
            Language::German => &GERMAN,
            Language::French => &FRENCH,
            Language::Dutch => &DUTCH,
        }
    }

    pub fn read_by(&self, manner: Manner) -> &'static str {
        match manner {
            Manner::Edition1 => self.by_edition_1,
            Manner::Edition2 => self.by_edition_2,
            Manner::House => self.by_the_house,
        }
    }

    /// The attribute of an element in which sentences of the crate stand that it has in English alone.
    pub fn of_english(&self) -> &'static str {
        match self.language {
            Language::English => "",
            _ => " lang=en",
        }
    }

    pub fn state(&self, state: State) -> &'static str {
        self.states[state as usize]
    }

    fn number_in_month(&self, day: i32) -> String {
        fill(if day == 1 { self.first_of_month } else { self.day_of_month }, &[&day])
    }

    /// `5 January`
    pub fn day(&self, month: usize, day: i32) -> String {
        fill(self.day_and_month, &[&self.number_in_month(day), &self.months[month - 1]])
    }

    /// `Tuesday 5 January 2021`; without the weekday where the calendar has no such day.
    pub fn dated(&self, day: Day) -> String {
        let date = format!("{} {}", self.day(day.month, day.day), day.year);
        match day.exists() {
            true => fill(self.weekday_and_date, &[&self.weekdays[day.weekday()], &date]),
            false => date,
        }
    }

    /// `5 January`, `1 to 5 January`, `28 January to 5 February`
    pub fn stretch(&self, first: Day, last: Day) -> String {
        let last_said = self.day(last.month, last.day);
        if first == last {
            last_said
        } else if first.month == last.month {
            fill(self.days_of_one_month, &[&self.number_in_month(first.day), &last_said])
        } else {
            fill(self.days, &[&self.day(first.month, first.day), &last_said])
        }
    }
}

#[cfg(test)]
mod tests {
    use super::*;

    #[test]
    fn stretches() {
        let on = |month, day| Day { year: 2021, month, day };
        let said =
            |texts: &Texts| [(on(1, 5), on(1, 5)), (on(1, 1), on(1, 5)), (on(1, 28), on(2, 1))].map(|(a, b)| texts.stretch(a, b));
        assert_eq!(said(&ENGLISH), ["5 January", "1 to 5 January", "28 January to 1 February"]);
        assert_eq!(said(&GERMAN), ["5. Januar", "1. bis 5. Januar", "28. Januar bis 1. Februar"]);
        assert_eq!(said(&FRENCH), ["5 janvier", "du 1er au 5 janvier", "du 28 janvier au 1er f\u{e9}vrier"]);
        assert_eq!(said(&DUTCH), ["5 januari", "1 tot en met 5 januari", "28 januari tot en met 1 februari"]);
    }

    #[test]
    fn dates() {
        let of = |year, month, day| ENGLISH.dated(Day { year, month, day });
        assert_eq!(of(2020, 12, 25), "Friday 25 December 2020");
        assert_eq!(of(2021, 2, 30), "30 February 2021");
        assert_eq!(of(10000, 1, 1), "Saturday 1 January 10000");
    }
}
