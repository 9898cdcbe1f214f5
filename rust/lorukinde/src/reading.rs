//! An accepted sheet or part: its records, and its rules.
use std::borrow::Cow;

use crate::meaning::{Head, Meaning, Placed};
use crate::note;
use crate::record::Record;

/// What an accepted sheet or part says. The records lie in the lent table, or, from [`parts`](crate::parts), in the reading.
#[derive(Clone, Debug, PartialEq, Eq)]
pub struct Reading<'a> {
    pub(crate) sheet: &'a [u8],
    pub(crate) records: Cow<'a, [Record]>,
    pub(crate) warnings: u32,
}

impl Reading<'_> {
    /// The records as they stand in the table: each rule's head, then its items in reading order.
    pub fn records(&self) -> &[Record] {
        &self.records
    }

    /// The records one by one, as what they mean.
    pub fn placed(&self) -> impl Iterator<Item = Placed> + '_ {
        self.records.iter().map(Record::placed)
    }

    /// The rules in the order of the sheet.
    pub fn rules(&self) -> Rules<'_> {
        rules(self.sheet, &self.records)
    }

    /// How many names are not written with the usual capitals (`mo`, `JAN`, `Off`). They are understood all the same.
    pub fn warnings(&self) -> u32 {
        self.warnings
    }
}

/// A rule: where it begins in the sheet, its head, and its items. Its `Display` says it in plain words.
#[derive(Clone, Copy, Debug, PartialEq, Eq)]
pub struct Rule<'a> {
    pub place: usize,
    pub head: Head,
    sheet: &'a [u8],
    /// The head's record and the items'.
    whole: &'a [Record],
}

impl<'a> Rule<'a> {
    /// The items as what they mean. A rule without items applies always.
    pub fn items(&self) -> impl Iterator<Item = Placed> + 'a {
        self.records().iter().map(Record::placed)
    }

    /// The items' records.
    pub fn records(&self) -> &'a [Record] {
        &self.whole[1..]
    }

    /// The rule as a table of its own.
    pub(crate) fn table(&self) -> &'a [Record] {
        self.whole
    }

    /// The comment out of the sheet, without its quotes. It is well-formed UTF-8: a reading refuses others.
    pub fn comment(&self) -> Option<&'a [u8]> {
        (self.head.comment_length != 0).then(|| note(self.sheet, b"", &self.head))
    }

    /// The note before a colon that another note of the rule replaces, without its quotes.
    pub fn replaced_note(&self) -> Option<&'a [u8]> {
        let rest = self.sheet.get(self.place..)?.strip_prefix(b"\"")?;
        let is_other = usize::try_from(self.head.comment_start) != Ok(self.place + 1);
        let length = rest.iter().position(|byte| *byte == b'"')?;
        is_other.then(|| &rest[..length])
    }

    /// The note to be shown: the comment, or the standing note where the rule has none.
    pub fn note<'b>(&self, standing: &'b [u8]) -> &'b [u8]
    where
        'a: 'b,
    {
        note(self.sheet, standing, &self.head)
    }
}

/// The rules of records that a reading of this sheet wrote.
pub fn rules<'a>(sheet: &'a [u8], records: &'a [Record]) -> Rules<'a> {
    Rules { sheet, records }
}

/// The rules of a reading.
#[derive(Clone, Debug)]
pub struct Rules<'a> {
    sheet: &'a [u8],
    records: &'a [Record],
}

impl<'a> Iterator for Rules<'a> {
    type Item = Rule<'a>;

    fn next(&mut self) -> Option<Rule<'a>> {
        let (first, rest) = self.records.split_first()?;
        // In a reading a head always stands here, and its items after it.
        let (place, head) = match first.placed() {
            Placed { place, meaning: Meaning::Head(head) } => (place, head),
            _ => return None,
        };
        let count = usize::try_from(head.items).unwrap_or(0).min(rest.len());
        let (whole, later) = self.records.split_at(count + 1);
        self.records = later;
        Some(Rule { place, head, sheet: self.sheet, whole })
    }
}
