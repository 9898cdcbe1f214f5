//! A whole sheet between quotes.
use super::{Remark, Seen};
use crate::hint::Hint;
use crate::manner::Manner;
use crate::parts::parts_in;

/// `"Mo-Fr 09:00-18:00"`
pub(super) fn remark(manner: Manner, sheet: &[u8], rules: &[Option<Seen<'_>>]) -> Option<Remark> {
    let rule = match rules {
        [Some(rule)] if rule.items.is_empty() && rule.written.first() == Some(&b'"') => rule,
        _ => return None,
    };
    let inside = rule.written.strip_prefix(b"\"")?.strip_suffix(b"\"")?;
    let has_items = parts_in(manner, inside)
        .any(|part| part.reading.map_or(false, |reading| reading.rules().any(|rule| rule.head.items > 0)));
    let is_all_read = parts_in(manner, inside).all(|part| part.reading.is_ok());
    let has_times =
        inside.windows(3).any(|three| three[0].is_ascii_digit() && b":-.".contains(&three[1]) && three[2].is_ascii_digit());
    (has_items || has_times).then_some(())?;
    let hint = is_all_read.then(|| Hint::new(sheet, rule.range.clone(), String::from_utf8_lossy(inside)));
    Some(Remark::doubt(rule.range.start, "the whole sheet stands between quotes, so it is a note, and open always", hint))
}
