//! Quotes: other signs than `"`, and those that are not closed or have nothing inside.
use super::{Hint, Spot};
use crate::expected::Last;
use crate::scan::Scan;

fn is_other_quote(letter: char) -> bool {
    matches!(letter, '\'' | '`' | '\u{ab}' | '\u{bb}' | '\u{b4}' | '\u{2018}'..='\u{201f}' | '\u{2039}' | '\u{203a}' | '\u{ff02}')
}

/// `„Sauna“`, `'Sauna'`
pub(super) fn other_quotes(spot: &Spot<'_>) -> Option<Hint> {
    let begin = Scan::new(spot.text, spot.place);
    let (_, inside) = begin.one(|letter| is_other_quote(letter) || letter == '"')?;
    let mut close = inside;
    while let Some((_, next)) = close.one(|letter| !is_other_quote(letter) && letter != '"') {
        close = next;
    }
    let note = std::str::from_utf8(&spot.text[inside.until(close)]).ok()?;
    let (_, end) = close.one(|_| true)?;
    let write = format!("\"{}\"", note.trim());
    Some(Hint::new(spot.text, begin.until(end), write, "a note stands between two `\"`"))
}

/// `Mo ""`
pub(super) fn nothing_inside(spot: &Spot<'_>) -> Option<Hint> {
    let begin = Scan::new(spot.text, spot.place);
    let end = begin.byte(b'"')?.byte(b'"')?;
    Some(Hint::new(spot.text, begin.until(end), "", ""))
}

/// `off "ask`: sure only where the note can end nowhere else, before a `:` or before another rule
pub(super) fn never_closed(spot: &Spot<'_>) -> Option<Hint> {
    let stage = spot.stage?;
    let begin = Scan::new(spot.text, spot.place);
    let note = std::str::from_utf8(begin.byte(b'"')?.rest()).ok()?;
    let may_go_on = [";", ", ", "||"].iter().any(|separator| note.contains(separator));
    let may_be_wide = stage.last == Last::Nothing && note.contains(':');
    let write = format!("\"{}\"", note.trim_end());
    (!may_go_on && !may_be_wide).then(|| Hint::new(spot.text, spot.place..spot.text.len(), write, ""))
}
