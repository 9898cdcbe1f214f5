//! What is read, as it is shown where no language is asked for: in English, and shorter than `said` says it.
use std::fmt;

use crate::meaning::{
    Date, Dates, Day, Event, Holiday, HolidayKind, Meaning, Month, Months, Placed, Separator, Span, State, Steps, Time,
    ToWeekday, Weekday, Weekdays, MIDNIGHT,
};
use crate::reading::Rule;

impl fmt::Display for Weekday {
    fn fmt(&self, f: &mut fmt::Formatter<'_>) -> fmt::Result {
        write!(f, "{self:?}") // the variants are the names
    }
}

impl fmt::Display for Month {
    fn fmt(&self, f: &mut fmt::Formatter<'_>) -> fmt::Result {
        write!(f, "{self:?}") // the variants are the names
    }
}

impl fmt::Display for Event {
    fn fmt(&self, f: &mut fmt::Formatter<'_>) -> fmt::Result {
        f.write_str(match self {
            Event::Dawn => "dawn",
            Event::Sunrise => "sunrise",
            Event::Sunset => "sunset",
            Event::Dusk => "dusk",
        })
    }
}

impl fmt::Display for State {
    fn fmt(&self, f: &mut fmt::Formatter<'_>) -> fmt::Result {
        f.write_str(match self {
            State::Open => "open",
            State::Closed => "closed",
            State::Unknown => "unknown",
        })
    }
}

/// `1 day`, `2 days`
fn counted(n: u32, unit: &str) -> String {
    format!("{n} {unit}{}", if n == 1 { "" } else { "s" })
}

/// `2 days after `, `1 day before `, or nothing
fn moved(offset: i32, unit: &str) -> String {
    let n = offset.unsigned_abs();
    match offset {
        0 => String::new(),
        1.. => format!("{} after ", counted(n, unit)),
        _ => format!("{} before ", counted(n, unit)),
    }
}

/// `1st`, `2nd last`, `last`
fn ordinal(n: i32) -> String {
    let place = match n.unsigned_abs() {
        1 => "1st".to_string(),
        2 => "2nd".to_string(),
        3 => "3rd".to_string(),
        other => format!("{other}th"),
    };
    match n {
        -1 => "last".to_string(),
        0.. => place,
        _ => format!("{place} last"),
    }
}

/// `a`, `a and b`, `a, b and c`
fn listed(some: &[String]) -> String {
    match some {
        [] => String::new(),
        [one] => one.clone(),
        [before @ .., last] => format!("{} and {last}", before.join(", ")),
    }
}

fn in_steps(f: &mut fmt::Formatter<'_>, step: i32) -> fmt::Result {
    match step {
        1 => Ok(()),
        other => write!(f, " in steps of {other}"),
    }
}

fn years(f: &mut fmt::Formatter<'_>, s: &Steps) -> fmt::Result {
    match (s.first, s.last) {
        (first, last) if first == last => write!(f, "{first}")?,
        (first, 9999) => write!(f, "from {first} on")?,
        (first, last) => write!(f, "{first} to {last}")?,
    }
    in_steps(f, s.step)
}

fn weeks(f: &mut fmt::Formatter<'_>, s: &Steps) -> fmt::Result {
    match (s.first, s.last) {
        (first, last) if first == last => write!(f, "week {first}")?,
        (first, last) => write!(f, "weeks {first} to {last}")?,
    }
    in_steps(f, s.step)
}

impl fmt::Display for Months {
    fn fmt(&self, f: &mut fmt::Formatter<'_>) -> fmt::Result {
        write!(f, "{}", self.first)?;
        if self.first != self.last {
            write!(f, " to {}", self.last)?;
        }
        match self.year {
            Some(year) => write!(f, " of {year}"),
            None => Ok(()),
        }
    }
}

impl fmt::Display for Date {
    fn fmt(&self, f: &mut fmt::Formatter<'_>) -> fmt::Result {
        match self.to_weekday {
            Some(ToWeekday::Next(day)) => write!(f, "the {day} on or after ")?,
            Some(ToWeekday::Previous(day)) => write!(f, "the {day} on or before ")?,
            None => {}
        }
        write!(f, "{}", moved(self.day_offset, "day"))?;
        match self.day {
            Day::Fixed { month, day } => write!(f, "{day} {month}")?,
            Day::Nth { month, weekday, n } => write!(f, "the {} {weekday} in {month}", ordinal(n))?,
            Day::Easter => write!(f, "Easter")?,
        }
        match self.year {
            Some(year) => write!(f, " {year}"),
            None => Ok(()),
        }
    }
}

impl fmt::Display for Dates {
    fn fmt(&self, f: &mut fmt::Formatter<'_>) -> fmt::Result {
        if self.start == self.end {
            return write!(f, "{}", self.start);
        }
        if self.end == LAST_DAY {
            return write!(f, "from {} on", self.start);
        }
        write!(f, "{} to {}", self.start, self.end)
    }
}

/// The end of a span without one (`2020 Dec 25+`).
const LAST_DAY: Date =
    Date { year: Some(9999), day: Day::Fixed { month: Month::December, day: 31 }, to_weekday: None, day_offset: 0 };

impl fmt::Display for Weekdays {
    fn fmt(&self, f: &mut fmt::Formatter<'_>) -> fmt::Result {
        write!(f, "{}", moved(self.day_offset, "day"))?;
        if !self.is_every_week() {
            write!(f, "the {} ", listed(&self.marks().map(ordinal).collect::<Vec<_>>()))?;
        }
        write!(f, "{}", self.first)?;
        if self.first != self.last {
            write!(f, " to {}", self.last)?;
        }
        if !self.is_every_week() {
            write!(f, " of the month")?;
        }
        Ok(())
    }
}

impl fmt::Display for Holiday {
    fn fmt(&self, f: &mut fmt::Formatter<'_>) -> fmt::Result {
        let kind = match self.kind {
            HolidayKind::Public => "public holidays",
            HolidayKind::School => "school holidays",
        };
        write!(f, "{}{kind}", moved(self.day_offset, "day"))
    }
}

impl fmt::Display for Time {
    fn fmt(&self, f: &mut fmt::Formatter<'_>) -> fmt::Result {
        match self {
            Time::Clock(later) if *later > MIDNIGHT => write!(f, "{} the next day", Time::Clock(later - MIDNIGHT)),
            Time::Clock(minutes) => write!(f, "{:02}:{:02}", minutes / 60, minutes % 60),
            Time::Sun(event, offset) => write!(f, "{}{event}", moved(*offset, "minute")),
        }
    }
}

impl Span {
    /// Whether the clock goes back from the start to the end (`18:00-09:00`), so that the end is on the next day.
    fn goes_back(&self) -> bool {
        matches!((self.start, self.end), (Time::Clock(start), Time::Clock(end)) if end < start)
    }
}

impl fmt::Display for Span {
    fn fmt(&self, f: &mut fmt::Formatter<'_>) -> fmt::Result {
        if self.is_point {
            return write!(f, "at {}", self.start);
        }
        write!(f, "{} to {}", self.start, self.end)?;
        if self.goes_back() {
            write!(f, " the next day")?;
        }
        if self.open_end {
            write!(f, " or later")?;
        }
        match self.repeat {
            Some(minutes) => write!(f, " every {}", counted(minutes.unsigned_abs(), "minute")),
            None => Ok(()),
        }
    }
}

impl fmt::Display for Placed {
    fn fmt(&self, f: &mut fmt::Formatter<'_>) -> fmt::Result {
        write!(f, "{}", self.meaning)
    }
}

impl fmt::Display for Meaning {
    fn fmt(&self, f: &mut fmt::Formatter<'_>) -> fmt::Result {
        match self {
            Meaning::Head(head) => write!(f, "{}", head.state),
            Meaning::Years(some) => years(f, some),
            Meaning::Months(some) => write!(f, "{some}"),
            Meaning::Dates(some) => write!(f, "{some}"),
            Meaning::Weeks(some) => weeks(f, some),
            Meaning::Weekdays(some) => write!(f, "{some}"),
            Meaning::Holiday(some) => write!(f, "{some}"),
            Meaning::Span(some) => write!(f, "{some}"),
            Meaning::Raw(words) => write!(f, "the words {words:?}"),
        }
    }
}

/// `closed: 25 December 2020 to 5 January 2021`; kinds of items are parted by commas, items of a kind by `and`.
impl fmt::Display for Rule<'_> {
    fn fmt(&self, f: &mut fmt::Formatter<'_>) -> fmt::Result {
        match self.head.separator {
            Separator::Normal => {}
            Separator::Additional => write!(f, "also ")?,
            Separator::Fallback => write!(f, "otherwise ")?,
        }
        write!(f, "{}: ", self.head.state)?;
        let mut before = None;
        for item in self.items() {
            match before {
                None => {}
                Some(same) if same == item.meaning.kind() => write!(f, " and ")?,
                Some(_) => write!(f, ", ")?,
            }
            write!(f, "{item}")?;
            before = Some(item.meaning.kind());
        }
        if before.is_none() {
            write!(f, "always")?;
        }
        match self.comment() {
            Some(comment) => write!(f, ", note \"{}\"", String::from_utf8_lossy(comment)),
            None => Ok(()),
        }
    }
}
