//! Signs and blanks: long dashes, blanks round `-`, a sign too many, and one that is missing.
use super::{Hint, Spot};
use crate::expected::Last;
use crate::found::named;
use crate::meaning::Kind;
use crate::names::STATES;
use crate::place::Character;
use crate::scan::Scan;

const TO: [&str; 11] = ["to", "bis", "till", "until", "through", "thru", "à", "au", "al", "tot", "hasta"];
const AND: [&str; 8] = ["and", "und", "et", "e", "y", "en", "u", "sowie"];

fn is_dash(letter: char) -> bool {
    matches!(letter, '-' | '~' | '\u{ad}' | '\u{2010}'..='\u{2015}' | '\u{2043}' | '\u{2212}' | '\u{fe63}' | '\u{ff0d}')
}

/// A dash of any kind, or a word for it, with blanks round it or without; and what is unusual about it.
pub(super) fn dash_between(scan: Scan<'_>) -> Option<(Scan<'_>, Option<String>)> {
    let begin = scan.blanks();
    let (mut after, odd) = match begin.one(is_dash) {
        Some((dash, after)) => (after, (dash != '-').then(|| format!("{} is written `-`", named(Character::Letter(dash))))),
        None => begin.one_word(&TO).map(|(word, after)| (after, Some(format!("`{word}` is written `-`"))))?,
    };
    while let Some((_, more)) = after.one(is_dash) {
        after = more;
    }
    let end = after.blanks();
    let is_spaced = begin.at > scan.at || end.at > after.at;
    Some((end, odd.or_else(|| is_spaced.then(|| "no blanks round `-`".into()))))
}

/// `Mo – Fr`, `Mo bis Fr`, `Mo - Fr`
pub(super) fn dash(spot: &Spot<'_>) -> Option<Hint> {
    let begin = Scan::new(spot.text, spot.stage?.done);
    let (end, _) = dash_between(begin)?;
    let is_right = begin.until(end).len() == 1 && begin.byte(b'-').is_some();
    (!is_right).then(|| Hint::joining(spot.text, begin.until(end), "-", ""))
}

/// A blank that is not byte 32: a tab, a no-break blank
pub(super) fn other_blank(spot: &Spot<'_>) -> Option<Hint> {
    let begin = Scan::new(spot.text, spot.place);
    let (_, end) = begin.one(|letter| letter != ' ' && letter.is_whitespace())?;
    Some(Hint::new(spot.text, begin.until(end), " ", ""))
}

/// A character that cannot be seen: a byte order mark, a blank of no width
pub(super) fn nothing_to_see(spot: &Spot<'_>) -> Option<Hint> {
    let begin = Scan::new(spot.text, spot.place);
    let (_, end) = begin.one(|letter| matches!(letter, '\u{feff}' | '\u{200b}'..='\u{200f}' | '\u{2060}'))?;
    Some(Hint { found: String::new(), ..Hint::new(spot.text, begin.until(end), "", "") })
}

/// `Mo-Fr: 09:00-18:00`
pub(super) fn colon_after_days(spot: &Spot<'_>) -> Option<Hint> {
    let stage = spot.stage.filter(|stage| matches!(stage.last, Last::Item(Kind::Days) | Last::Always))?;
    let begin = Scan::new(spot.text, stage.done);
    let end = begin.blanks().byte(b':')?;
    let write = if end.byte(b' ').is_some() || end.rest().is_empty() { "" } else { " " };
    Some(Hint { found: ":".into(), ..Hint::new(spot.text, begin.until(end), write, "") })
}

/// `Mo ,Tu`, `Jan : Mo`
pub(super) fn blank_before_sign(spot: &Spot<'_>) -> Option<Hint> {
    let begin = Scan::new(spot.text, spot.stage?.done);
    let (sign, end) = begin.blanks().one(|sign| ",:[/+".contains(sign))?;
    Some(Hint::new(spot.text, begin.until(end), sign, ""))
}

/// `Mo und We`, `Mo & We`, `Mo/We`
pub(super) fn and(spot: &Spot<'_>) -> Option<Hint> {
    let stage = spot.stage.filter(|stage| matches!(stage.last, Last::Item(_)))?;
    let begin = Scan::new(spot.text, stage.done);
    let is_sign = |sign| sign == '&' || (sign == '/' && stage.last == Last::Item(Kind::Days)); // `2020/21` is no list
    let sign = begin.blanks().one(is_sign);
    let end = sign.map(|(_, end)| end).or_else(|| Some(begin.blanks().one_word(&AND)?.1))?;
    let end = end.byte(b'.').unwrap_or(end);
    Some(Hint::joining(spot.text, begin.until(end.blanks()), ",", ""))
}

/// `Dec 25.`, `Mo.`
pub(super) fn full_stop(spot: &Spot<'_>) -> Option<Hint> {
    let begin = Scan::new(spot.text, spot.place);
    let (_, end) = begin.one(|sign| ".!".contains(sign))?;
    Some(Hint::new(spot.text, begin.until(end), "", ""))
}

/// `Mo 10:00-12:00,`
pub(super) fn comma_at_the_end(spot: &Spot<'_>) -> Option<Hint> {
    let stage = spot.stage.filter(|stage| matches!(stage.last, Last::Comma(_)))?;
    let comma = stage.done - 1;
    (spot.place == spot.text.len()).then(|| Hint::new(spot.text, comma..stage.done, "", ""))
}

/// `Mo10:00-12:00`; after times also `10:00-12:00,Tu`, since a comma and a blank begin a rule
pub(super) fn missing_blank(spot: &Spot<'_>) -> Option<Hint> {
    let is_sure = match spot.stage?.last {
        Last::Comma(kind) => kind == Kind::Times && begins_with_days(spot),
        _ => true,
    };
    is_sure.then(|| Hint::joining(spot.text, spot.place..spot.place, " ", ""))
}

/// `09:00-12:00 14:00-18:00`. In `Mo Fr` it may be `-` that is missing.
pub(super) fn missing_comma(spot: &Spot<'_>) -> Option<Hint> {
    let stage = spot.stage.filter(|stage| stage.last == Last::Item(Kind::Times))?;
    Some(Hint { found: String::new(), ..Hint::joining(spot.text, stage.done..spot.place, ",", "without a blank") })
}

/// `Mo,10:00-12:00`. In `Mo 10:00-12:00,off` it is not sure what is off.
pub(super) fn blank_for_comma(spot: &Spot<'_>) -> Option<Hint> {
    let stage = spot.stage.filter(|stage| matches!(stage.last, Last::Comma(kind) if kind != Kind::Times))?;
    let comma = stage.done - 1;
    Some(Hint::new(spot.text, comma..stage.done, " ", ""))
}

/// Whether what stands at the place can begin a rule of its own. A state or a note alone would be a rule for all days, and belongs
/// to the days before it.
fn begins_with_days(spot: &Spot<'_>) -> bool {
    let here = Scan::new(spot.text, spot.place);
    here.one_word(&STATES).is_none() && here.byte(b'"').is_none()
}

/// `Mo 10:00-12:00,Tu` in house sheets, where a comma begins no rule
pub(super) fn semicolon_for_comma(spot: &Spot<'_>) -> Option<Hint> {
    let stage = spot.stage.filter(|stage| stage.last == Last::Comma(Kind::Times) && begins_with_days(spot))?;
    let comma = stage.done - 1;
    Some(Hint::new(spot.text, comma..stage.done, "; ", "a new rule begins after it"))
}

/// `Mo 10:00-12:00 Tu`: sure only after what ends a rule that has days or times
pub(super) fn missing_semicolon(spot: &Spot<'_>) -> Option<Hint> {
    let stage = spot.stage.filter(|stage| stage.done < spot.place && begins_with_days(spot))?;
    let ends_rule = match stage.last {
        Last::Item(kind) => kind == Kind::Times,
        Last::State | Last::Note => stage.meaning.is_some(),
        _ => false,
    };
    ends_rule.then(|| Hint::joining(spot.text, stage.done..stage.done, ";", "a new rule begins there"))
}
