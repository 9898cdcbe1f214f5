//! The names of the sheet rules, and how they are spelled.
use std::ops::Range;

pub(crate) const WEEKDAYS: [&str; 7] = ["Mo", "Tu", "We", "Th", "Fr", "Sa", "Su"];
pub(crate) const MONTHS: [&str; 12] = ["Jan", "Feb", "Mar", "Apr", "May", "Jun", "Jul", "Aug", "Sep", "Oct", "Nov", "Dec"];
pub(crate) const STATES: [&str; 4] = ["open", "closed", "off", "unknown"];
const SMALL: [&str; 5] = ["dawn", "sunrise", "sunset", "dusk", "easter"];

/// A name of an accepted sheet that is not written with its usual capitals. It is understood all the same.
#[derive(Clone, Copy, Debug, PartialEq, Eq)]
pub struct UnusualName<'a> {
    pub place: usize,
    pub found: &'a str,
    pub usual: &'static str,
}

/// The names with unusual capitals of an accepted sheet or of an accepted part of it, which is given by its range: as many as
/// [`Reading::warnings`](crate::Reading::warnings) counts. In an accepted text each run of letters outside quotes is one name.
pub fn unusual_names(sheet: &[u8], part: Range<usize>) -> impl Iterator<Item = UnusualName<'_>> {
    let mut place = part.start;
    std::iter::from_fn(move || loop {
        let word = next_word(&sheet[..part.end], place)?;
        place = word.end;
        let found = std::str::from_utf8(&sheet[word.clone()]).ok()?;
        match usual(found) {
            Some(usual) if usual != found => return Some(UnusualName { place: word.start, found, usual }),
            _ => {}
        }
    })
}

/// The next run of letters outside quotes from a place outside quotes on.
fn next_word(text: &[u8], from: usize) -> Option<Range<usize>> {
    let mut quoted = false;
    let begin = (from..text.len()).find(|at| {
        quoted ^= text[*at] == b'"';
        !quoted && text[*at].is_ascii_alphabetic()
    })?;
    let length = text[begin..].iter().take_while(|byte| byte.is_ascii_alphabetic()).count();
    Some(begin..begin + length)
}

/// The usual spelling of a name that takes any capitals.
fn usual(name: &str) -> Option<&'static str> {
    let mut all = WEEKDAYS.iter().chain(&MONTHS).chain(&STATES).chain(&SMALL);
    all.find(|usual| usual.eq_ignore_ascii_case(name)).copied()
}
