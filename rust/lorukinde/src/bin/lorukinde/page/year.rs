//! A year as a wall calendar shows it: which days there are, in which column each stands, and the number of each row's week.
//!
//! Nothing here says which days a rule touches: that is the library's answer.
use std::time::{SystemTime, UNIX_EPOCH};

const FIRST: i32 = 1900;
const LAST: i32 = 9999;
pub const MONTHS: usize = 12;
const WEEK: usize = 7;
/// The column of Thursday, by which a week is numbered.
const THURSDAY: usize = 3;

#[derive(Clone, Copy, Debug, PartialEq, Eq)]
pub struct Day {
    pub year: i32,
    /// From 1.
    pub month: usize,
    pub day: i32,
}

#[derive(Clone, Copy)]
pub struct Year(pub i32);

impl Year {
    /// The year, if it is one of which the library knows the days.
    pub fn of(number: i32) -> Option<Year> {
        (FIRST..=LAST).contains(&number).then_some(Year(number))
    }

    /// The year that it is now, by Greenwich.
    pub fn current() -> Year {
        const DAY_SECONDS: u64 = 86_400;
        let since = SystemTime::now().duration_since(UNIX_EPOCH).map_or(0, |time| time.as_secs());
        let (mut year, mut days) = (Year(1970), (since / DAY_SECONDS) as usize);
        while days >= year.days() && year.0 < LAST {
            days -= year.days();
            year.0 += 1;
        }
        year
    }

    fn is_leap(self) -> bool {
        self.0 % 4 == 0 && (self.0 % 100 != 0 || self.0 % 400 == 0)
    }

    pub fn days(self) -> usize {
        365 + usize::from(self.is_leap())
    }

    /// How many days a month has, January being 1.
    pub fn days_of(self, month: usize) -> i32 {
        match month {
            2 => 28 + i32::from(self.is_leap()),
            4 | 6 | 9 | 11 => 30,
            _ => 31,
        }
    }

    /// Every day, from the first to the last.
    pub fn each_day(self) -> impl Iterator<Item = Day> {
        (1..=MONTHS).flat_map(move |month| (1..=self.days_of(month)).map(move |day| Day { year: self.0, month, day }))
    }

    /// The column of 1 January, Monday's being 0: 1 January of the year 1 would be a Monday.
    fn first_column(self) -> usize {
        let before = self.0 - 1;
        let days = 365 * before + before / 4 - before / 100 + before / 400;
        days as usize % WEEK
    }

    /// The column of the day with so many days of the year before it.
    pub fn column(self, before: usize) -> usize {
        (self.first_column() + before) % WEEK
    }

    /// The ISO 8601 week of the day with so many days of the year before it: the number of its Thursday among those of the year in
    /// which that lies.
    pub fn week(self, before: usize) -> usize {
        let column = self.column(before);
        let thursday = before + THURSDAY;
        let last_year = Year(self.0 - 1).days();
        let before_thursday = match thursday.checked_sub(column) {
            None => last_year + thursday - column,
            Some(days) if days >= self.days() => days - self.days(),
            Some(days) => days,
        };
        before_thursday / WEEK + 1
    }
}

impl Day {
    /// Whether the calendar has it.
    pub fn exists(self) -> bool {
        self.day <= Year(self.year).days_of(self.month)
    }

    /// Its weekday, Monday being 0.
    pub fn weekday(self) -> usize {
        let year = Year(self.year);
        let before: i32 = (1..self.month).map(|month| year.days_of(month)).sum::<i32>() + self.day - 1;
        year.column(before as usize)
    }
}
