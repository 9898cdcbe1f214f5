//! Dates, months, weeks and years.
use super::pieces::Tokens;
use super::tokens::What;
use crate::names::MONTHS;

const LAST_DAY: u32 = 31;
const LAST_HOUR: u32 = 24;
const FIRST_YEAR: u32 = 1900;
/// A year that stands after its date is one of these; another number may be two that have come together.
const LIKELY_YEARS: std::ops::Range<u32> = 1990..2100;

/// A date as far as it is written: of `24.-26. Dezember` the first has no month.
#[derive(Clone, Debug, Default, PartialEq)]
struct Point {
    year: Option<u32>,
    month: Option<usize>,
    day: Option<u32>,
    /// A day that goes with easter, as the rules write it.
    easter: Option<String>,
}

impl Point {
    fn is_bare(&self) -> bool {
        self.month.is_none() && self.easter.is_none()
    }

    /// With the month and the year of another, where it has none.
    fn completed(&self, by: &Point) -> Point {
        match self.is_bare() {
            true => Point { year: by.year, month: by.month, ..self.clone() },
            false => self.clone(),
        }
    }

    fn text(&self) -> Option<String> {
        let name = || Some(MONTHS.get(self.month?.checked_sub(1)?)?.to_string());
        let rest = match (&self.easter, self.day) {
            (Some(easter), _) => easter.clone(),
            (None, Some(day)) => format!("{} {day}", name()?),
            (None, None) => name()?,
        };
        Some(self.year.map_or(rest.clone(), |year| format!("{year} {rest}")))
    }
}

type Dates = (Point, Option<Point>);

/// Dates or months, with all days that share a month: `24., 25. und 31. Dezember`, `Dec 24,25`.
pub(super) fn dates(tokens: Tokens<'_>, at: usize, has_days: bool) -> Option<(String, usize)> {
    let (first, mut at) = one(tokens, at)?;
    let mut all = vec![first];
    loop {
        let is_waiting = all.iter().all(|(start, end)| start.is_bare() && end.as_ref().map_or(true, Point::is_bare));
        let next = if tokens.is_join(at) { one(tokens, at + 1) } else { None };
        let has_day = all.iter().any(|(start, _)| start.day.is_some());
        match next {
            Some((more, end)) if is_waiting || (has_day && more.0.is_bare() && more.1.as_ref().map_or(true, Point::is_bare)) => {
                let may_be_times = !is_waiting && more.1.as_ref().map_or(false, |last| last.day <= Some(LAST_HOUR));
                (!may_be_times).then_some(())?;
                all.push(more);
                at = end;
            }
            _ => break,
        }
    }
    let with_month = |(start, end): &Dates| {
        end.clone().filter(|end| !end.is_bare()).or_else(|| Some(start.clone()).filter(|start| !start.is_bare()))
    };
    let by = all.iter().find_map(with_month).filter(|_| !has_days)?;
    let texts: Option<Vec<String>> = all.iter().map(|(start, end)| span(start, end.as_ref(), &by)).collect();
    Some((texts?.join(","), at))
}

/// A date, or from a date to a date.
fn one(tokens: Tokens<'_>, at: usize) -> Option<(Dates, usize)> {
    let (start, after) = point(tokens, at).or_else(|| bare(tokens, at))?;
    if !tokens.is_dash(after) {
        return Some(((start, None), after));
    }
    let last = point(tokens, after + 1).or_else(|| bare(tokens, after + 1).filter(|_| start.day.is_some()));
    let (last, end) = last?;
    Some(((start, Some(last)), end))
}

/// A span as the rules write it, if it is sure which year each date has.
fn span(start: &Point, last: Option<&Point>, by: &Point) -> Option<String> {
    let last = match last {
        None => return start.completed(by).text(),
        Some(last) => last,
    };
    let start = start.completed(if last.is_bare() { by } else { last });
    let is_bare = last.is_bare();
    let last = last.completed(&start);
    if start.easter.is_some() || last.easter.is_some() {
        return Some(format!("{}-{}", start.text()?, last.text()?));
    }
    let rises = (start.month, start.day) <= (last.month, last.day);
    (start.day.is_some() == last.day.is_some()).then_some(())?;
    match (start.year, last.year) {
        _ if is_bare || (rises && start.year == last.year && start.month == last.month && start.day.is_some()) => {
            Some(format!("{}-{}", start.text()?, last.day?))
        }
        (None, None) => Some(format!("{}-{}", start.text()?, last.text()?)),
        (Some(one), Some(other)) if start.day.is_some() && one <= other => Some(format!("{}-{}", start.text()?, last.text()?)),
        (Some(_), None) if start.day.is_some() => Some(format!("{}-{}", start.text()?, last.text()?)),
        (one, other) if rises && (one.is_none() || other.is_none() || one == other) => in_a_year(&start, &last),
        _ => None,
    }
}

/// A span in the one year that is written.
fn in_a_year(start: &Point, last: &Point) -> Option<String> {
    let year = start.year.or(last.year);
    let first = Point { year, ..start.clone() };
    let last = Point { year: if start.day.is_some() { year } else { None }, ..last.clone() };
    Some(format!("{}-{}", first.text()?, last.text()?))
}

/// A date or a month with all that belongs to it, in any order.
fn point(tokens: Tokens<'_>, at: usize) -> Option<(Point, usize)> {
    let year_at =
        |at: usize| tokens.number(at).filter(|(year, digits)| *digits == 4 && *year >= FIRST_YEAR).map(|(year, _)| year);
    let (year, at) = match year_at(at) {
        Some(year) => (Some(year), at + 1),
        None => (None, at),
    };
    let (point, end) = month_and_day(tokens, at)?;
    let is_range_of_years = tokens.is_dash(end + 1) && year_at(end + 2).is_some();
    match (year.or(point.year), year_at(end)) {
        (None, Some(year)) if !is_range_of_years && LIKELY_YEARS.contains(&year) => {
            Some((Point { year: Some(year), ..point }, end + 1))
        }
        (year, _) => Some((Point { year, ..point }, end)),
    }
}

fn month_and_day(tokens: Tokens<'_>, at: usize) -> Option<(Point, usize)> {
    match tokens.what(at)? {
        What::Date(year, month, day) => Some((Point { year: *year, month: Some(*month), day: Some(*day), easter: None }, at + 1)),
        What::Number(..) => {
            let (day, end) = bare(tokens, at)?;
            Some((Point { month: Some(month(tokens.name(end)?)?), ..day }, end + 1))
        }
        What::Name(name) if name.starts_with("easter") => easter(tokens, name, at + 1),
        What::Name(name) => {
            let mut words = name.split(' '); // `Dec`, or a day with a name of its own, `Dec 25`
            let month = Some(month(words.next()?)?);
            let day = words.next().and_then(|day| day.parse().ok());
            let point = Point { month, day, ..Point::default() };
            match bare(tokens, at + 1).filter(|(_, end)| day.is_none() && !is_start_of_times(tokens, *end)) {
                Some((day, end)) => Some((Point { month, ..day }, end)),
                None => Some((point, at + 1)),
            }
        }
        _ => None,
    }
}

/// Whether a time ends what began with a number, as in `Mai 9-17 Uhr`.
fn is_start_of_times(tokens: Tokens<'_>, at: usize) -> bool {
    tokens.is_dash(at) && matches!(tokens.what(at + 1), Some(What::Clock(_)))
}

fn easter(tokens: Tokens<'_>, name: &str, at: usize) -> Option<(Point, usize)> {
    let (easter, end) = match tokens.what(at) {
        Some(What::Offset(offset)) if name == "easter" => (format!("{name}{offset}"), at + 1),
        _ => (name.to_string(), at),
    };
    Some((Point { easter: Some(easter), ..Point::default() }, end))
}

/// The number of a day alone.
fn bare(tokens: Tokens<'_>, at: usize) -> Option<(Point, usize)> {
    let (day, digits) = tokens.number(at)?;
    let is_day = digits <= 2 && (1..=LAST_DAY).contains(&day);
    is_day.then(|| (Point { day: Some(day), ..Point::default() }, at + 1))
}

fn month(name: &str) -> Option<usize> {
    MONTHS.iter().position(|month| *month == name).map(|i| i + 1)
}

/// `week 1-10/2,12`
pub(super) fn weeks(tokens: Tokens<'_>, at: usize) -> Option<(String, usize)> {
    tokens.name(at).filter(|name| *name == "week")?;
    let (mut text, mut at) = steps(tokens, at + 1, 2)?;
    while let Some((more, end)) = if tokens.is_join(at) { steps(tokens, at + 1, 2) } else { None } {
        (!tokens.all[at + 1].is_apart || !more.contains('-')).then_some(())?; // `KW 12, 9-17` may be times
        text = format!("{text},{more}");
        at = end;
    }
    Some((format!("week {text}"), at))
}

/// `2020`, `2020-2022`, `2020+`
pub(super) fn years(tokens: Tokens<'_>, at: usize) -> Option<(String, usize)> {
    tokens.number(at).filter(|(year, digits)| *digits == 4 && *year >= FIRST_YEAR)?;
    let is_of_date = tokens.name(at + 1).map_or(false, |name| month(name).is_some() || name.starts_with("easter"));
    (!is_of_date).then_some(())?;
    let (text, end) = steps(tokens, at, 4)?;
    Some(if tokens.is_sign(end, '+') { (text + "+", end + 1) } else { (text, end) })
}

/// A number of so many digits, or from one to another, in steps.
fn steps(tokens: Tokens<'_>, at: usize, most: usize) -> Option<(String, usize)> {
    let number = |at: usize| tokens.number(at).filter(|(_, digits)| *digits <= most).map(|(value, _)| value);
    let first = number(at)?;
    if !tokens.is_dash(at + 1) {
        return Some((first.to_string(), at + 1));
    }
    let text = format!("{first}-{}", number(at + 2)?);
    match tokens.number(at + 4) {
        Some((step, _)) if tokens.is_sign(at + 3, '/') => Some((format!("{text}/{step}"), at + 5)),
        _ => Some((text, at + 3)),
    }
}
