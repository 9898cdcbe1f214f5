//! What is read, in plain words: one way to say it, with the sentences of a language. (What is shown without a language is in
//! `shown`.)
mod dutch;
mod english;
mod french;
mod german;
mod language;
mod shown;
mod times;

use crate::meaning::{
    Date, Dates, Day, Holiday, HolidayKind, Kind, Meaning, Month, Months, Placed, Separator, State, Steps, ToWeekday, Weekday,
    Weekdays,
};
use crate::reading::Rule;
use language::{fill, Sentences};

pub use language::Language;

const ENGLISH: &Sentences = &english::SENTENCES;
/// The end of years, and of dates with a year, that go on.
const LAST_YEAR: i32 = 9999;
const LAST_DAY: Date =
    Date { year: Some(LAST_YEAR), day: Day::Fixed { month: Month::December, day: 31 }, to_weekday: None, day_offset: 0 };

impl Sentences {
    fn weekday(&self, weekday: Weekday) -> &'static str {
        self.weekdays[weekday as usize - 1]
    }

    fn month(&self, month: Month) -> &'static str {
        self.months[month as usize - 1]
    }

    /// `1st`, `2nd last`, `last`
    fn ordinal(&self, n: i32) -> String {
        let place = match n.unsigned_abs() {
            1 => self.first.into(),
            2 => self.second.into(),
            3 => self.third.into(),
            other => fill(self.nth, &[&other.to_string()]),
        };
        match n {
            -1 => self.last.into(),
            0.. => place,
            _ => fill(self.nth_last, &[&place]),
        }
    }

    /// `a`, `a and b`, `a, b and c`
    fn listed(&self, some: &[String]) -> String {
        match some {
            [] => String::new(),
            [one] => one.clone(),
            [before @ .., last] => fill(self.and, &[&before.join(", "), last]),
        }
    }

    /// What lies so many days or minutes from something: `2 days after Easter`.
    fn moved(&self, offset: i32, (one, more): (&str, &str), from: String) -> String {
        let n = offset.unsigned_abs();
        let long = if n == 1 { one.to_string() } else { fill(more, &[&n.to_string()]) };
        match offset {
            0 => from,
            1.. => fill(self.after, &[&long, &from]),
            _ => fill(self.before, &[&long, &from]),
        }
    }

    fn moved_days(&self, offset: i32, from: String) -> String {
        self.moved(offset, (self.day, self.days), from)
    }

    fn years(&self, some: &Steps) -> String {
        let (first, last) = (some.first.to_string(), some.last.to_string());
        match some.step {
            _ if some.first == some.last => first,
            1 if some.last == LAST_YEAR => fill(self.from_on, &[&first]),
            1 => fill(self.to, &[&first, &last]),
            step => fill(self.every_nth_year, &[&self.ordinal(step), &first, &last]),
        }
    }

    fn weeks(&self, some: &Steps) -> String {
        let (first, last) = (some.first.to_string(), some.last.to_string());
        match some.step {
            _ if some.first == some.last => fill(self.week, &[&first]),
            1 => fill(self.weeks, &[&first, &last]),
            step => fill(self.every_nth_week, &[&self.ordinal(step), &first, &last]),
        }
    }

    fn months(&self, some: &Months) -> String {
        let (first, last) = (self.month(some.first), self.month(some.last));
        let months = if first == last { first.into() } else { fill(self.to, &[first, last]) };
        match some.year {
            Some(year) => fill(self.months_of_year, &[&months, &year.to_string()]),
            None => months,
        }
    }

    /// A date with its offsets in the order in which they are applied: first days, then to a weekday.
    fn date(&self, some: &Date) -> String {
        let day = match some.day {
            Day::Fixed { month, day: 1 } => fill(self.first_of_month, &[self.month(month)]),
            Day::Fixed { month, day } => fill(self.date, &[&day.to_string(), self.month(month)]),
            Day::Nth { month, weekday, n } => {
                fill(self.nth_weekday, &[&self.ordinal(n), self.weekday(weekday), self.month(month)])
            }
            Day::Easter => self.easter.into(),
        };
        let day = some.year.map_or(day.clone(), |year| fill(self.in_year, &[&day, &year.to_string()]));
        let day = self.moved_days(some.day_offset, day);
        match some.to_weekday {
            Some(ToWeekday::Next(weekday)) => fill(self.then_next, &[&day, self.weekday(weekday)]),
            Some(ToWeekday::Previous(weekday)) => fill(self.then_previous, &[&day, self.weekday(weekday)]),
            None => day,
        }
    }

    /// Dates; those without a year are of every year, if no years stand beside them. An end without a year, after a start that has
    /// one, has the first in which it does not come before the start.
    fn dates(&self, some: &Dates, has_years: bool) -> String {
        let end = Date { year: some.end.year.or_else(|| year_of_end(some)), ..some.end };
        let days = match some {
            _ if some.start == some.end => self.date(&some.start),
            _ if some.end == LAST_DAY => fill(self.from_on, &[&self.date(&some.start)]),
            _ => fill(self.to, &[&self.date(&some.start), &self.date(&end)]),
        };
        let is_yearly = some.start.year.is_none() && some.end.year.is_none() && !has_years;
        if is_yearly {
            fill(self.every_year, &[&days])
        } else {
            days
        }
    }

    fn weekdays(&self, some: &Weekdays) -> String {
        let (first, last) = (self.weekday(some.first), self.weekday(some.last));
        let days = if first == last { first.to_string() } else { fill(self.to, &[first, last]) };
        let days = match some.is_every_week() {
            true => days,
            false => {
                let marks: Vec<String> = some.marks().map(|n| self.ordinal(n)).collect();
                fill(self.of_the_month, &[&self.listed(&marks), &days])
            }
        };
        self.moved_days(some.day_offset, days)
    }

    fn holiday(&self, some: &Holiday) -> String {
        let holidays = match some.kind {
            HolidayKind::Public => self.public_holidays,
            HolidayKind::School => self.school_holidays,
        };
        self.moved_days(some.day_offset, holidays.into())
    }

    fn meaning(&self, some: &Meaning, has_years: bool) -> String {
        match some {
            Meaning::Head(head) => self.states[head.state as usize].into(),
            Meaning::Years(some) => self.years(some),
            Meaning::Months(some) => self.months(some),
            Meaning::Dates(some) => self.dates(some, has_years),
            Meaning::Weeks(some) => self.weeks(some),
            Meaning::Weekdays(some) => self.weekdays(some),
            Meaning::Holiday(some) => self.holiday(some),
            Meaning::Span(some) => self.span(some),
            Meaning::Raw(words) => format!("the words {words:?}"),
        }
    }

    /// The items of a rule, kinds parted by commas; every day or all day where nothing else is said.
    fn items(&self, rule: &Rule<'_>) -> String {
        let items: Vec<Placed> = rule.items().collect();
        let of = |kind: Kind| items.iter().map(|item| item.meaning).filter(move |meaning| meaning.kind() == kind);
        let on_a_weekday = only_date(of(Kind::MonthDays)) && only_weekday(of(Kind::Days));
        let has_years = of(Kind::Years).next().is_some() || on_a_weekday;
        let list = |kind: Kind| self.listed(&of(kind).map(|some| self.meaning(&some, has_years)).collect::<Vec<_>>());
        let (dates, days, times) = (list(Kind::MonthDays), list(Kind::Days), list(Kind::Times));
        let mut said = match on_a_weekday {
            true => vec![list(Kind::Years), fill(self.if_weekday, &[&dates, &days]), list(Kind::Weeks)],
            false => vec![list(Kind::Years), dates, list(Kind::Weeks), days],
        };
        said.retain(|some| !some.is_empty());
        match (said.is_empty(), times.is_empty()) {
            (true, true) => return self.always.into(),
            (true, false) => said.push(self.every_day.into()),
            (false, true) if rule.head.state == State::Open => said.push(self.all_day.into()),
            _ => {}
        }
        said.push(times);
        said.retain(|some| !some.is_empty());
        said.join(", ")
    }

    fn note(&self, rule: &Rule<'_>) -> Option<String> {
        let note = String::from_utf8_lossy(rule.comment()?).into_owned();
        Some(match rule.replaced_note() {
            Some(replaced) => fill(self.note_in_place_of, &[&note, &String::from_utf8_lossy(replaced)]),
            None => fill(self.note, &[&note]),
        })
    }

    /// `closed: 25 December 2020 to 5 January 2021`
    fn rule(&self, rule: &Rule<'_>) -> String {
        let state = self.states[rule.head.state as usize];
        let state = match rule.head.separator {
            Separator::Normal => state.into(),
            Separator::Additional => fill(self.also, &[state]),
            Separator::Fallback => fill(self.otherwise, &[state]),
        };
        let note = self.note(rule).map_or(String::new(), |note| format!(", {note}"));
        format!("{state}: {}{note}", self.items(rule))
    }
}

/// The year of an end that has none, after a start that has one.
fn year_of_end(dates: &Dates) -> Option<i32> {
    match (dates.start.year, dates.start.day, dates.end.day) {
        (Some(year), Day::Fixed { month: first, day: from }, Day::Fixed { month: last, day: to }) => {
            let rises = (first.number(), from) <= (last.number(), to);
            Some(if rises { year } else { year + 1 })
        }
        _ => None,
    }
}

/// Whether there is one date, of one day.
fn only_date(mut some: impl Iterator<Item = Meaning>) -> bool {
    matches!((some.next(), some.next()), (Some(Meaning::Dates(dates)), None) if dates.start == dates.end)
}

/// Whether there is one weekday, of every week.
fn only_weekday(mut some: impl Iterator<Item = Meaning>) -> bool {
    let is_single = |days: &Weekdays| days.first == days.last && days.is_every_week() && days.day_offset == 0;
    matches!((some.next(), some.next()), (Some(Meaning::Weekdays(days)), None) if is_single(&days))
}

/// `a, b and c` in English.
pub(crate) fn listed(some: &[String]) -> String {
    ENGLISH.listed(some)
}

/// `1st` in English.
pub(crate) fn ordinal(n: i32) -> String {
    match (n % 10, n % 100) {
        (1, 1) | (1, 21..=99) => format!("{n}st"),
        (2, 2) | (2, 22..=99) => format!("{n}nd"),
        (3, 3) | (3, 23..=99) => format!("{n}rd"),
        _ => format!("{n}th"),
    }
}

impl Rule<'_> {
    /// The rule in plain words of a language; a note and names of its own stay as they are.
    pub fn said(&self, language: Language) -> String {
        language.sentences().rule(self)
    }
}

impl Meaning {
    /// An item in plain words of a language.
    pub fn said(&self, language: Language) -> String {
        language.sentences().meaning(self, false)
    }
}

impl Date {
    /// A date in plain words of a language.
    pub fn said(&self, language: Language) -> String {
        language.sentences().date(self)
    }
}
