//! Weekdays and holidays.
use super::pieces::Tokens;
use super::tokens::What;
use crate::manner::Manner;
use crate::names::WEEKDAYS;

/// `Mo`, `Mo-Fr`, `Mo[1]`, `PH`, `Mo-Su` for `täglich`.
pub(super) fn weekdays(tokens: Tokens<'_>, at: usize) -> Option<(String, usize)> {
    let name = tokens.name(at)?;
    let is_range = ["Mo-Su", "Mo-Fr", "Mo-Sa", "Sa-Su"].contains(&name);
    let is_holiday = ["PH", "SH"].contains(&name);
    match (is_range, is_holiday, WEEKDAYS.contains(&name)) {
        (true, ..) => Some((name.into(), at + 1)),
        (_, true, _) => Some(with_offset(tokens, name.into(), at + 1)),
        (.., true) => weekday(tokens, name, at + 1),
        _ => None,
    }
}

fn weekday(tokens: Tokens<'_>, name: &str, at: usize) -> Option<(String, usize)> {
    let takes_all = tokens.manner == Manner::Edition2;
    let (text, at) = match tokens.is_dash(at) {
        true => (format!("{name}-{}", tokens.name(at + 1).filter(|last| WEEKDAYS.contains(last))?), at + 2),
        false => (name.to_string(), at),
    };
    match tokens.what(at) {
        Some(What::Marks(marks)) => Some(with_offset(tokens, text + marks, at + 1)),
        Some(What::Offset(_)) if takes_all => Some(with_offset(tokens, text, at)),
        _ => Some((text, at)),
    }
}

fn with_offset(tokens: Tokens<'_>, text: String, at: usize) -> (String, usize) {
    match tokens.what(at) {
        Some(What::Offset(offset)) => (text + offset, at + 1),
        _ => (text, at),
    }
}
