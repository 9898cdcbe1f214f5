//! Remarks on what is accepted: is it meant?
//!
//! They look at the records of the proved reader and at the places that these have; no text is read a second time, but for how an
//! item is written. A sheet that is plainly meant so has none.
mod dates;
mod meeting;
mod quoted;
mod separators;

use std::ops::Range;

use crate::hint::Hint;
use crate::manner::Manner;
use crate::meaning::{Head, Kind, Meaning, Placed, State};
use crate::parts::{parts_in, Part};

/// A remark on an accepted part of a sheet. It refuses nothing.
#[derive(Clone, Debug, PartialEq, Eq)]
pub struct Remark {
    /// Where what is remarked on stands.
    pub place: usize,
    pub sentence: String,
    /// What to write so that it is sure, where that can be said.
    pub hint: Option<Hint>,
    /// Whether it is likely that something else was meant.
    is_doubt: bool,
}

impl Remark {
    fn new(place: usize, sentence: impl Into<String>, hint: Option<Hint>) -> Remark {
        Remark { place, sentence: sentence.into(), hint, is_doubt: false }
    }

    fn doubt(place: usize, sentence: impl Into<String>, hint: Option<Hint>) -> Remark {
        Remark { is_doubt: true, ..Remark::new(place, sentence, hint) }
    }
}

impl std::fmt::Display for Remark {
    fn fmt(&self, f: &mut std::fmt::Formatter<'_>) -> std::fmt::Result {
        write!(f, "{}", self.sentence)?;
        match &self.hint {
            Some(hint) => write!(f, "; {hint}"),
            None => Ok(()),
        }
    }
}

/// The remarks on the accepted parts of a sheet, in the order of their places.
pub fn remarks(manner: Manner, sheet: &[u8]) -> Vec<Remark> {
    let parts: Vec<Part<'_>> = parts_in(manner, sheet).collect();
    let rules = seen(sheet, &parts);
    let mut all: Vec<Remark> = rules.iter().flatten().flat_map(|rule| dates::remarks(sheet, rule)).collect();
    all.extend(separators::remarks(sheet, &rules));
    all.extend(meeting::remarks(&rules));
    all.extend(quoted::remark(manner, sheet, &rules));
    all.sort_by_key(|remark| remark.place);
    all
}

/// Whether something in a sheet is probably not meant.
pub(crate) fn is_doubtful(manner: Manner, sheet: &[u8]) -> bool {
    remarks(manner, sheet).iter().any(|remark| remark.is_doubt)
}

/// A rule of an accepted part, and how it is written.
struct Seen<'a> {
    /// From its first byte to its last, without the separator after it.
    range: Range<usize>,
    written: &'a [u8],
    head: Head,
    items: Vec<Placed>,
    /// Whether it is the first of its part.
    is_first: bool,
}

impl Seen<'_> {
    fn has(&self, kind: Kind) -> bool {
        self.items.iter().any(|item| item.meaning.kind() == kind)
    }

    /// Whether it says on which days, and not only when.
    fn has_days(&self) -> bool {
        self.items.iter().any(|item| item.meaning.kind() != Kind::Times)
    }

    fn has_note(&self) -> bool {
        self.head.comment_length != 0
    }

    fn is_open(&self) -> bool {
        self.head.state == State::Open
    }

    /// Whether it says `open` itself.
    fn says_open(&self) -> bool {
        let words = self.written.split(|byte| !byte.is_ascii_alphabetic());
        self.is_open() && words.into_iter().any(|word| word.eq_ignore_ascii_case(b"open"))
    }

    /// How an item is written.
    fn item(&self, i: usize) -> &[u8] {
        let begin = self.items[i].place;
        let end = self.items.get(i + 1).map_or(self.range.end, |next| next.place);
        &self.written[begin - self.range.start..end - self.range.start]
    }
}

/// The rules of the accepted parts in their order; None stands for a part that is refused.
fn seen<'a>(sheet: &'a [u8], parts: &[Part<'_>]) -> Vec<Option<Seen<'a>>> {
    let mut all = Vec::new();
    for part in parts {
        match &part.reading {
            Err(_) => all.push(None),
            Ok(reading) => {
                let rules: Vec<_> = reading.rules().collect();
                for (i, rule) in rules.iter().enumerate() {
                    let end = rules.get(i + 1).map_or(part.range.end, |next| next.place);
                    let range = rule.place..rule.place + without_separator(&sheet[rule.place..end]);
                    all.push(Some(Seen {
                        written: &sheet[range.clone()],
                        range,
                        head: rule.head,
                        items: rule.items().collect(),
                        is_first: i == 0,
                    }));
                }
            }
        }
    }
    all
}

/// How long a rule is without the blanks and the separator after it.
fn without_separator(rule: &[u8]) -> usize {
    rule.len() - rule.iter().rev().take_while(|byte| b" ,|".contains(byte)).count()
}

/// The weekdays of a rule, by number from 1; all seven if it names none, nor a holiday.
fn weekdays(rule: &Seen<'_>) -> Vec<i32> {
    let named: Vec<i32> = rule
        .items
        .iter()
        .filter_map(|item| match item.meaning {
            Meaning::Weekdays(days) => Some(days),
            _ => None,
        })
        .flat_map(|days| {
            let (first, last) = (days.first.number(), days.last.number());
            (0..7).map(move |i| (first - 1 + i) % 7 + 1).take(((last - first).rem_euclid(7) + 1) as usize)
        })
        .collect();
    match rule.has(Kind::Days) {
        true => named,
        false => (1..=7).collect(),
    }
}
