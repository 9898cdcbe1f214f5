//! What a record's words mean, as types. Decoding never fails: words that no reading writes are given back as they are.
use crate::names::{MONTHS, WEEKDAYS};
use crate::record::Record;

/// A meaning, and the place where it stands.
#[derive(Clone, Copy, Debug, PartialEq, Eq)]
pub struct Placed {
    /// The item's first byte in the sheet: its year's if it has one, a week's number's; for a head, where its rule begins.
    /// For words that no reading writes it is 0.
    pub place: usize,
    pub meaning: Meaning,
}

#[derive(Clone, Copy, Debug, PartialEq, Eq)]
pub enum Meaning {
    /// The head of a rule; its items follow.
    Head(Head),
    Years(Steps),
    Months(Months),
    Dates(Dates),
    Weeks(Steps),
    Weekdays(Weekdays),
    Holiday(Holiday),
    Span(Span),
    /// Words that no reading writes, such as those of a record not yet used.
    Raw([i32; 16]),
}

/// The kind of list that an item can stand in. Items of one kind add to each other, and a day has to fit each kind that stands in
/// a rule.
#[derive(Clone, Copy, Debug, PartialEq, Eq)]
pub(crate) enum Kind {
    Years,
    MonthDays,
    Weeks,
    Days,
    Times,
    /// A head, or raw words.
    NoItem,
}

impl Meaning {
    pub(crate) fn kind(&self) -> Kind {
        match self {
            Meaning::Years(_) => Kind::Years,
            Meaning::Months(_) | Meaning::Dates(_) => Kind::MonthDays,
            Meaning::Weeks(_) => Kind::Weeks,
            Meaning::Weekdays(_) | Meaning::Holiday(_) => Kind::Days,
            Meaning::Span(_) => Kind::Times,
            Meaning::Head(_) | Meaning::Raw(_) => Kind::NoItem,
        }
    }
}

/// A rule's head. The comment's start counts from the sheet's first byte, inside the quote; no comment is 0, 0.
/// [`note`](crate::note) and [`Rule::comment`](crate::Rule::comment) give the comment itself.
#[derive(Clone, Copy, Debug, PartialEq, Eq)]
pub struct Head {
    pub separator: Separator,
    pub state: State,
    pub comment_start: i32,
    pub comment_length: i32,
    pub items: i32,
}

/// How a rule stands to the ones before it.
#[derive(Clone, Copy, Debug, PartialEq, Eq)]
pub enum Separator {
    /// The first rule, or one after `;`: where it applies, it takes the place of those before.
    Normal,
    /// After `, `: it adds to those before.
    Additional,
    /// After `||`: it counts where none before applies.
    Fallback,
}

#[derive(Clone, Copy, Debug, PartialEq, Eq)]
pub enum State {
    Open,
    Closed,
    Unknown,
}

/// Years or weeks, from the first to the last, both among them, in steps.
#[derive(Clone, Copy, Debug, PartialEq, Eq)]
pub struct Steps {
    pub first: i32,
    pub last: i32,
    pub step: i32,
}

/// Months from the first to the last, of a year or of every year. They go round: November to February are four months.
#[derive(Clone, Copy, Debug, PartialEq, Eq)]
pub struct Months {
    pub year: Option<i32>,
    pub first: Month,
    pub last: Month,
}

/// The days from one date to another. A single date has the same start and end.
#[derive(Clone, Copy, Debug, PartialEq, Eq)]
pub struct Dates {
    pub start: Date,
    pub end: Date,
}

/// A date of a year or of every year, and how far the day that is meant is moved from it: first by days, then to a weekday.
#[derive(Clone, Copy, Debug, PartialEq, Eq)]
pub struct Date {
    pub year: Option<i32>,
    pub day: Day,
    pub to_weekday: Option<ToWeekday>,
    pub day_offset: i32,
}

#[derive(Clone, Copy, Debug, PartialEq, Eq)]
pub enum Day {
    Fixed {
        month: Month,
        day: i32,
    },
    /// The nth such weekday of a month, counted from its end where n is below 0.
    Nth {
        month: Month,
        weekday: Weekday,
        n: i32,
    },
    Easter,
}

#[derive(Clone, Copy, Debug, PartialEq, Eq)]
pub enum ToWeekday {
    /// That weekday, on the day itself or after it.
    Next(Weekday),
    /// That weekday, on the day itself or before it.
    Previous(Weekday),
}

/// Weekdays from the first to the last; they go round. The marks say which of a month: bit n-1 is the nth of the month,
/// counted from its start, and from its end.
#[derive(Clone, Copy, Debug, PartialEq, Eq)]
pub struct Weekdays {
    pub first: Weekday,
    pub last: Weekday,
    pub day_offset: i32,
    pub from_start: u8,
    pub from_end: u8,
}

/// A month has at most five of a weekday.
const MOST_MARK: i32 = 5;
const ALL_MARKS: u8 = (1 << MOST_MARK) - 1;

impl Weekdays {
    /// Whether all ten marks are set: every such weekday is meant, and not some of a month.
    pub fn is_every_week(&self) -> bool {
        self.from_start == ALL_MARKS && self.from_end == ALL_MARKS
    }

    /// Which of a month are meant: 1 for the first, -1 for the last; those from the start first, rising.
    pub fn marks(&self) -> impl Iterator<Item = i32> {
        let (start, end) = (self.from_start, self.from_end);
        let set = |flags: u8, n: &i32| flags >> (n - 1) & 1 == 1;
        let from_start = (1..=MOST_MARK).filter(move |n| set(start, n));
        from_start.chain((1..=MOST_MARK).filter(move |n| set(end, n)).map(|n| -n))
    }
}

#[derive(Clone, Copy, Debug, PartialEq, Eq)]
pub struct Holiday {
    pub kind: HolidayKind,
    pub day_offset: i32,
}

#[derive(Clone, Copy, Debug, PartialEq, Eq)]
pub enum HolidayKind {
    Public,
    School,
}

/// Midnight at the end of a day, in minutes.
pub(crate) const MIDNIGHT: i32 = 1440;

/// From a time to a time, in the order in which they are written. With an open end it may last longer. A point in time, which
/// edition 2 of the sheet rules knows, ends where it starts.
#[derive(Clone, Copy, Debug, PartialEq, Eq)]
pub struct Span {
    pub start: Time,
    pub end: Time,
    /// Minutes from one point of the span to the next.
    pub repeat: Option<i32>,
    pub open_end: bool,
    pub is_point: bool,
}

#[derive(Clone, Copy, Debug, PartialEq, Eq)]
pub enum Time {
    /// Minutes since midnight, as an end up to 48:00.
    Clock(i32),
    /// Minutes after a sun event, before it where they are below 0.
    Sun(Event, i32),
}

/// A sun event.
#[derive(Clone, Copy, Debug, PartialEq, Eq)]
pub enum Event {
    Dawn = 1,
    Sunrise,
    Sunset,
    Dusk,
}

#[derive(Clone, Copy, Debug, PartialEq, Eq)]
pub enum Weekday {
    Monday = 1,
    Tuesday,
    Wednesday,
    Thursday,
    Friday,
    Saturday,
    Sunday,
}

#[derive(Clone, Copy, Debug, PartialEq, Eq)]
pub enum Month {
    January = 1,
    February,
    March,
    April,
    May,
    June,
    July,
    August,
    September,
    October,
    November,
    December,
}

/// The value with that number, where the first has 1.
fn numbered<T: Copy>(all: &[T], number: i32) -> Option<T> {
    let i = usize::try_from(number).ok()?.checked_sub(1)?;
    all.get(i).copied()
}

impl Weekday {
    /// Monday is 1, Sunday 7.
    pub fn from_number(number: i32) -> Option<Weekday> {
        use Weekday::*;
        numbered(&[Monday, Tuesday, Wednesday, Thursday, Friday, Saturday, Sunday], number)
    }

    pub fn number(self) -> i32 {
        self as i32
    }

    /// Its name in a sheet: `Mo` to `Su`.
    pub fn name(self) -> &'static str {
        WEEKDAYS[self as usize - 1]
    }
}

impl Month {
    /// January is 1, December 12.
    pub fn from_number(number: i32) -> Option<Month> {
        use Month::*;
        let all = [January, February, March, April, May, June, July, August, September, October, November, December];
        numbered(&all, number)
    }

    pub fn number(self) -> i32 {
        self as i32
    }

    /// Its name in a sheet: `Jan` to `Dec`.
    pub fn name(self) -> &'static str {
        MONTHS[self as usize - 1]
    }
}

impl Record {
    pub fn placed(&self) -> Placed {
        let words = self.words();
        typed(&words).unwrap_or(Placed { place: 0, meaning: Meaning::Raw(words) })
    }
}

/// The meaning and the place of words that a reading can write, as far as their types tell; None for others.
fn typed(w: &[i32; 16]) -> Option<Placed> {
    Some(Placed { place: usize::try_from(w[15]).ok()?, meaning: meaning(w)? })
}

fn meaning(w: &[i32; 16]) -> Option<Meaning> {
    Some(match w[0] {
        1 => Meaning::Head(head(w)?),
        2 => Meaning::Years(steps(w)),
        3 => Meaning::Months(Months { year: year(w[1]), first: Month::from_number(w[2])?, last: Month::from_number(w[3])? }),
        4 => Meaning::Dates(Dates {
            start: date([w[1], w[2], w[3], w[4], w[5], w[6], w[7]])?,
            end: date([w[8], w[9], w[10], w[11], w[12], w[13], w[14]])?,
        }),
        5 => Meaning::Weeks(steps(w)),
        6 => Meaning::Weekdays(Weekdays {
            first: Weekday::from_number(w[1])?,
            last: Weekday::from_number(w[2])?,
            day_offset: w[3],
            from_start: marks(w[4])?,
            from_end: marks(w[5])?,
        }),
        7 => Meaning::Holiday(Holiday { kind: numbered(&[HolidayKind::Public, HolidayKind::School], w[1])?, day_offset: w[2] }),
        8 => Meaning::Span(Span {
            start: time(w[1], w[2])?,
            end: time(w[3], w[4])?,
            repeat: repeat(w[5])?,
            open_end: flag(w[6])?,
            is_point: flag(w[7])?,
        }),
        _ => return None,
    })
}

fn head(w: &[i32; 16]) -> Option<Head> {
    Some(Head {
        separator: match w[1] {
            0 => Separator::Normal,
            1 => Separator::Additional,
            2 => Separator::Fallback,
            _ => return None,
        },
        state: match w[2] {
            0 => State::Open,
            1 => State::Closed,
            2 => State::Unknown,
            _ => return None,
        },
        comment_start: w[3],
        comment_length: w[4],
        items: w[5],
    })
}

fn steps(w: &[i32; 16]) -> Steps {
    Steps { first: w[1], last: w[2], step: w[3] }
}

fn year(word: i32) -> Option<i32> {
    (word != 0).then_some(word)
}

fn date([form, in_year, month, day, n, to_weekday, day_offset]: [i32; 7]) -> Option<Date> {
    let day = match form {
        1 => Day::Fixed { month: Month::from_number(month)?, day },
        2 => Day::Nth { month: Month::from_number(month)?, weekday: Weekday::from_number(day)?, n },
        3 => Day::Easter,
        _ => return None,
    };
    let to_weekday = match to_weekday {
        0 => None,
        next @ 1.. => Some(ToWeekday::Next(Weekday::from_number(next)?)),
        previous => Some(ToWeekday::Previous(Weekday::from_number(previous.checked_neg()?)?)),
    };
    Some(Date { year: year(in_year), day, to_weekday, day_offset })
}

fn marks(word: i32) -> Option<u8> {
    u8::try_from(word).ok().filter(|mask| *mask <= ALL_MARKS)
}

fn time(kind: i32, minutes: i32) -> Option<Time> {
    if kind == 0 {
        return (0..=2 * MIDNIGHT).contains(&minutes).then_some(Time::Clock(minutes));
    }
    let event = numbered(&[Event::Dawn, Event::Sunrise, Event::Sunset, Event::Dusk], kind)?;
    Some(Time::Sun(event, minutes))
}

fn repeat(word: i32) -> Option<Option<i32>> {
    match word {
        -1 => Some(None),
        0.. => Some(Some(word)),
        _ => None,
    }
}

fn flag(word: i32) -> Option<bool> {
    match word {
        0 => Some(false),
        1 => Some(true),
        _ => None,
    }
}
