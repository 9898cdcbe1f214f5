//! What to write instead of what stands in a sheet.
use std::fmt;
use std::ops::Range;

use crate::place::{characters, shown};

/// What to write instead. Its `Display` says so.
#[derive(Clone, Debug, PartialEq, Eq)]
pub struct Hint {
    /// The bytes of the sheet that are to be replaced; none where something is to be put in.
    pub range: Range<usize>,
    /// What to write there; where it is more than one, the writer has to say which is meant.
    pub write: Vec<String>,
    /// What stands in the range, to be shown; and what stands before it.
    found: String,
    after: String,
    because: Vec<String>,
}

impl Hint {
    /// These bytes are to be replaced by this.
    pub(crate) fn new(sheet: &[u8], range: Range<usize>, write: impl Into<String>) -> Hint {
        Hint {
            found: shown(&sheet[range.clone()]),
            after: before(sheet, range.start),
            range,
            write: vec![write.into()],
            because: Vec::new(),
        }
    }

    /// What a slip proposes, said without what stands before it.
    pub(crate) fn of_slip(range: Range<usize>, write: Vec<String>, found: String, because: String) -> Hint {
        let because = if because.is_empty() { Vec::new() } else { vec![because] };
        Hint { range, write, found, after: String::new(), because }
    }

    pub(crate) fn because(mut self, why: &str) -> Hint {
        self.because.push(why.into());
        self
    }

    /// What to write for a range, without what stays the same at its beginning and at its end. None if there is nothing to write.
    pub(crate) fn between(
        sheet: &[u8],
        range: Range<usize>,
        write: Vec<String>,
        because: impl Iterator<Item = String>,
    ) -> Option<Hint> {
        const MOST_REASONS: usize = 2;
        let text = &sheet[range.clone()];
        let (first, last) = same_at_ends(text, &write)?;
        let range = range.start + first..range.end - last;
        let write: Option<Vec<String>> =
            write.iter().map(|write| Some(write.get(first..write.len() - last)?.to_string())).collect();
        let mut reasons: Vec<String> = Vec::new();
        for why in because {
            if reasons.len() < MOST_REASONS && !reasons.contains(&why) {
                reasons.push(why);
            }
        }
        let is_nothing = range.is_empty() && write.iter().flatten().all(String::is_empty);
        let (found, after) = (shown(&sheet[range.clone()]), before(sheet, range.start));
        (!is_nothing).then_some(Hint { found, after, range, write: write?, because: reasons })
    }
}

/// How many bytes stay the same at the beginning and at the end. Where a blank is to be written or to be left out at one of the ends
/// of what is shown, the word before or after it is shown too, so that it is seen.
fn same_at_ends(text: &[u8], write: &[String]) -> Option<(usize, usize)> {
    let mut first = write.iter().map(|write| same_at_start(text, write.as_bytes())).min()?;
    let mut last = write.iter().map(|write| same_at_end(&text[first..], &write.as_bytes()[first..])).min()?;
    let rest = |write: &String, first: usize, last: usize| write.as_bytes()[first..write.len() - last].to_vec();
    let found = |first: usize, last: usize| &text[first..text.len() - last];
    let is_sign = |write: &String| {
        let write = rest(write, first, last);
        trimmed(&write).is_empty() || trimmed(found(first, last)).is_empty() || trimmed(&write) == trimmed(found(first, last))
    };
    if write.iter().any(is_sign) {
        return Some((first, last));
    }
    let is_blank = |byte: Option<&u8>| byte == Some(&b' ');
    let hides = |first: usize, last: usize| {
        let begins = |write: &String| is_blank(rest(write, first, last).first()) != is_blank(found(first, last).first());
        let ends = |write: &String| is_blank(rest(write, first, last).last()) != is_blank(found(first, last).last());
        (write.iter().any(begins), write.iter().any(ends))
    };
    while first > 0 && hides(first, last).0 {
        first -= pieces(&text[..first]).last().map_or(first, |piece| piece.len());
    }
    while last > 0 && hides(first, last).1 {
        last -= pieces(&text[text.len() - last..]).first().map_or(last, |piece| piece.len());
    }
    Some((first, last))
}

fn trimmed(text: &[u8]) -> &[u8] {
    let begin = text.iter().take_while(|byte| **byte == b' ').count();
    let end = text.iter().rev().take_while(|byte| **byte == b' ').count();
    text.get(begin..text.len() - end).unwrap_or_default()
}

/// The last word, number or sign before a place.
fn before(sheet: &[u8], place: usize) -> String {
    let text = &sheet[..place];
    pieces(text).iter().rev().find(|piece| !piece.iter().all(|byte| *byte == b' ')).map_or(String::new(), |piece| shown(piece))
}

/// The pieces of a text that are shown whole: words, numbers, times, and each sign.
fn pieces(text: &[u8]) -> Vec<&[u8]> {
    let is_joined = |before: char, after: char| match (before, after) {
        (':' | '.', other) | (other, ':' | '.') => other.is_ascii_digit(),
        (before, after) => before.is_alphanumeric() && after.is_alphanumeric(),
    };
    let (mut all, mut begin, mut before) = (Vec::new(), 0, None);
    for (place, character) in characters(text) {
        if before.map_or(false, |before| !is_joined(before, character.shown())) {
            all.push(&text[begin..place]);
            begin = place;
        }
        before = Some(character.shown());
    }
    all.extend(before.map(|_| &text[begin..]));
    all
}

fn same_at_start(one: &[u8], other: &[u8]) -> usize {
    pieces(one).iter().zip(pieces(other)).take_while(|(one, other)| **one == *other).map(|(one, _)| one.len()).sum()
}

fn same_at_end(one: &[u8], other: &[u8]) -> usize {
    let pairs = pieces(one).into_iter().rev().zip(pieces(other).into_iter().rev());
    pairs.take_while(|(one, other)| one == other).map(|(one, _)| one.len()).sum()
}

impl fmt::Display for Hint {
    fn fmt(&self, f: &mut fmt::Formatter<'_>) -> fmt::Result {
        let (found, write) = (self.found.trim_matches(' '), self.write.join("` or `"));
        let shown = if self.found.starts_with(' ') { write.trim_start() } else { &write };
        match (found, shown.trim()) {
            ("", "") if write.is_empty() => write!(f, "leave it out")?,
            (_, "") if write.is_empty() => write!(f, "leave `{found}` out")?,
            ("", "") if self.after.is_empty() => write!(f, "write a blank before it")?,
            ("", "") => write!(f, "write a blank after `{}`", self.after)?,
            (sign, "") if sign.is_ascii() && sign.trim() == sign => write!(f, "write a blank, not `{sign}`")?,
            (_, "") => write!(f, "write a blank for it")?,
            ("", _) if self.after.is_empty() => write!(f, "write `{shown}` before it")?,
            ("", _) => write!(f, "write `{shown}` after `{}`", self.after)?,
            (same, text) if same == text && shown.starts_with(' ') => write!(f, "write a blank before it")?,
            (same, text) if same == text => write!(f, "write `{text}` without blanks")?,
            _ => write!(f, "write `{shown}`, not `{found}`")?,
        }
        match &self.because[..] {
            [] => Ok(()),
            some => write!(f, ": {}", some.join(", ")),
        }
    }
}
