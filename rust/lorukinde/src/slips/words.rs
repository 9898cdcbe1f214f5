//! Names written in full, in another language, or with capitals that they do not take.
use super::{times, Hint, Spot};
use crate::expected::Last;
use crate::foreign;
use crate::meaning::{Kind, Month, Weekday};
use crate::names::{MONTHS, WEEKDAYS};
use crate::scan::{Scan, COUNT_DIGITS};

pub(super) const ORDINALS: [&str; 4] = ["st", "nd", "rd", "th"];

/// A word for which the rules have a name. Reading may have stopped inside it, as of `Monday` `Mo` is read, or before the `-` that
/// it stands after, as in `Mo-Mi`.
pub(super) fn name(spot: &Spot<'_>) -> Option<Hint> {
    let here = Scan::new(spot.text, spot.place);
    let here = here.byte(b'-').unwrap_or(here);
    here.word()?;
    let before = spot.text[..here.at].iter().rev().take_while(|byte| byte.is_ascii_alphabetic()).count();
    let begin = Scan::new(spot.text, here.at - before);
    let (word, after) = begin.word()?;
    let end = after.byte(b'.').unwrap_or(after);
    let is_before_digit = end.letter().map_or(false, |letter| letter.is_ascii_digit());
    let write: Vec<String> =
        foreign::written(&word).map(|name| if is_before_digit { format!("{name} ") } else { name.into() }).collect();
    let meant: Vec<String> = foreign::written(&word).filter_map(in_full).collect();
    Some(Hint { write, ..Hint::new(spot.text, begin.until(end), "", meant.join(", ")) })
}

/// `Tu` is Tuesday
fn in_full(name: &'static str) -> Option<String> {
    let number = |names: &[&str]| names.iter().position(|known| *known == name).map(|i| i as i32 + 1);
    let weekday = number(&WEEKDAYS).and_then(Weekday::from_number).map(|day| day.to_string());
    let month = number(&MONTHS).and_then(Month::from_number).map(|month| month.to_string());
    Some(format!("`{name}` is {}", weekday.or(month)?))
}

/// `+1day`, `+ 1 Tag`, `+1 Days`
pub(super) fn day_offset(spot: &Spot<'_>) -> Option<Hint> {
    let stage = spot.stage.filter(|stage| matches!(stage.last, Last::Item(_)))?;
    let begin = Scan::new(spot.text, stage.done);
    let (sign, after) = begin.blanks().one(|sign| "+-".contains(sign))?;
    let (count, _, after) = after.blanks().number(COUNT_DIGITS)?;
    let (word, end) = after.blanks().word()?;
    let is_days = foreign::written(&word).eq(["days"]);
    let unit = if count == 1 { "day" } else { "days" };
    is_days.then(|| Hint::new(spot.text, begin.until(end), format!(" {sign}{count} {unit}"), ""))
}

/// `Uhr` after times
pub(super) fn unit_of_time(spot: &Spot<'_>) -> Option<Hint> {
    let stage = spot.stage.filter(|stage| stage.last == Last::Item(Kind::Times))?;
    let begin = Scan::new(spot.text, stage.done);
    Some(Hint::new(spot.text, begin.until(times::unit(begin)?), "", ""))
}

/// The letters of `Dec 25th`
pub(super) fn ordinal_letters(spot: &Spot<'_>) -> Option<Hint> {
    spot.stage.filter(|stage| stage.last == Last::Item(Kind::MonthDays) && stage.done == spot.place)?;
    let begin = Scan::new(spot.text, spot.place);
    let (_, end) = begin.one_word(&ORDINALS)?;
    Some(Hint::new(spot.text, begin.until(end), "", ""))
}
