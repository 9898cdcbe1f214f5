//! Many sheets at once, one a line.
use std::borrow::Cow;
use std::fmt;
use std::ops::Range;

use crate::calls;
use crate::reading::Reading;
use crate::record::Record;
use crate::refusal::Refusal;

/// A line's answer: number, place, records and warnings, kept as the 16 little-endian bytes that the library writes.
#[derive(Clone, Copy, Default, PartialEq, Eq, Hash)]
#[repr(transparent)]
pub struct LineAnswer([u8; 16]);

impl LineAnswer {
    /// Room not yet used.
    pub const EMPTY: LineAnswer = LineAnswer([0; 16]);

    pub fn from_words(words: [u32; 4]) -> LineAnswer {
        let mut bytes = [0; 16];
        for (four, word) in bytes.chunks_exact_mut(4).zip(words) {
            four.copy_from_slice(&word.to_le_bytes());
        }
        LineAnswer(bytes)
    }

    /// Number, place, records, warnings.
    pub fn words(&self) -> [u32; 4] {
        let mut words = [0; 4];
        for (word, four) in words.iter_mut().zip(self.0.chunks_exact(4)) {
            *word = u32::from_le_bytes([four[0], four[1], four[2], four[3]]);
        }
        words
    }
}

impl fmt::Debug for LineAnswer {
    fn fmt(&self, f: &mut fmt::Formatter<'_>) -> fmt::Result {
        f.debug_tuple("LineAnswer").field(&self.words()).finish()
    }
}

/// A feed that was read: a reading or a refusal for each line.
#[derive(Clone, Debug, PartialEq, Eq)]
pub struct Feed<'a> {
    feed: &'a [u8],
    answers: &'a [LineAnswer],
    records: &'a [Record],
}

impl<'a> Feed<'a> {
    /// The lines' answers, in their order.
    pub fn answers(&self) -> &'a [LineAnswer] {
        self.answers
    }

    /// The records of all accepted lines, one line's after the other's.
    pub fn records(&self) -> &'a [Record] {
        self.records
    }

    pub fn lines(&self) -> Lines<'a> {
        Lines { feed: self.clone(), begin: 0 }
    }
}

/// A line of a feed: from where to where it goes, without its byte 10, and what it says or why it is refused. Places count from the
/// line's first byte.
#[derive(Clone, Debug, PartialEq, Eq)]
pub struct Line<'a> {
    pub range: Range<usize>,
    pub reading: Result<Reading<'a>, Refusal>,
}

/// The lines of a feed, from [`Feed::lines`].
#[derive(Clone, Debug)]
pub struct Lines<'a> {
    feed: Feed<'a>,
    begin: usize,
}

impl<'a> Iterator for Lines<'a> {
    type Item = Line<'a>;

    fn next(&mut self) -> Option<Line<'a>> {
        let (answer, answers) = self.feed.answers.split_first()?;
        let rest = &self.feed.feed[self.begin..];
        let sheet = &rest[..rest.iter().position(|byte| *byte == b'\n').unwrap_or(rest.len())];
        let range = self.begin..self.begin + sheet.len();
        let [number, place, count, warnings] = answer.words();
        let (records, later) = self.feed.records.split_at(count as usize);
        self.feed.answers = answers;
        self.feed.records = later;
        self.begin = range.end + 1;
        let reading = match number {
            0 => Ok(Reading { sheet, records: Cow::Borrowed(records), warnings }),
            _ => Err(Refusal { number, place: place as usize }),
        };
        Some(Line { range, reading })
    }
}

/// Reads a feed, sheets parted by byte 10, into two lent tables. Each line is read as [`read_sheet`](crate::read_sheet) reads it, with
/// the room that the lines before it have left; one that does not fit is refused for it, and the next is tried. A final byte 10
/// starts no line. Where there are fewer answers than lines the whole feed is refused, and nothing is written.
pub fn read_feed<'a>(feed: &'a [u8], answers: &'a mut [LineAnswer], table: &'a mut [Record]) -> Result<Feed<'a>, Refusal> {
    let (number, lines, records) = calls::read_feed(feed, answers, table);
    match number {
        0 => Ok(Feed { feed, answers: &answers[..lines], records: &table[..records] }),
        _ => Err(Refusal { number, place: 0 }),
    }
}
