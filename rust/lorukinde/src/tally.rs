//! Figures over many sheets.
use std::fmt;
use std::iter::Sum;

use crate::calls;
use crate::reading::Reading;
use crate::record::Record;
use crate::refusal::Refusal;

/// So many counts has a tally.
pub const COUNTS: usize = 34;
pub(crate) const TALLY_BYTES: usize = 4 * COUNTS;
/// Where the counts stand: those of numbers come first, items of kind k at `READ + k`.
const NUMBERS: usize = 24;
const READ: usize = 24;
const WARNINGS: usize = 25;
const MARKS: usize = 33;
/// The kinds of items, from 2 on, as people call them.
const KINDS: [&str; 7] = ["years", "months", "dates", "weeks", "weekdays", "holidays", "times"];
const FIRST_KIND: usize = 2;

/// A tally: sheets read, accepted, refused by each number, items by kind, warnings, and ordinal marks. It is kept as the 136
/// little-endian bytes of `include/lorukinde.h`, so it can be stored and sent as it is. [`Tally::default`] is the fresh one.
///
/// ```
/// let mut table = [lorukinde::Record::EMPTY; 8];
/// let mut tally = lorukinde::Tally::default();
/// for sheet in [&b"Mo-Fr 09:00-18:00"[..], b"Sa 10-12", b"Su[1,-1] off"] {
///     tally.add(&lorukinde::read_sheet(sheet, &mut table))?;
/// }
/// assert_eq!((tally.read(), tally.accepted(), tally.refused(), tally.marks()), (3, 2, 1, 12));
/// # Ok::<(), lorukinde::Refusal>(())
/// ```
#[derive(Clone, Copy, PartialEq, Eq, Hash)]
#[repr(transparent)]
pub struct Tally([u8; TALLY_BYTES]);

impl Tally {
    /// The tally with these counts, which may be any.
    pub fn from_counts(counts: [u32; COUNTS]) -> Tally {
        let mut bytes = [0; TALLY_BYTES];
        for (four, count) in bytes.chunks_exact_mut(4).zip(counts) {
            four.copy_from_slice(&count.to_le_bytes());
        }
        Tally(bytes)
    }

    /// All counts, in the order of `include/lorukinde.h`.
    pub fn counts(&self) -> [u32; COUNTS] {
        let mut counts = [0; COUNTS];
        for (count, four) in counts.iter_mut().zip(self.0.chunks_exact(4)) {
            *count = u32::from_le_bytes([four[0], four[1], four[2], four[3]]);
        }
        counts
    }

    pub fn from_bytes(bytes: [u8; TALLY_BYTES]) -> Tally {
        Tally(bytes)
    }

    pub fn bytes(&self) -> &[u8; TALLY_BYTES] {
        &self.0
    }

    /// Takes in what a sheet's reading answered, with its records. Refused with [`Refusal::COUNT_FULL`] where a count would pass
    /// 4,294,967,295, and the tally is as it was; what a reading of this crate answered always fits, but for a part's
    /// [`Refusal::NO_PART`] and a feed's [`Refusal::NO_ANSWER_ROOM`], which no sheet has: [`Refusal::NO_FIT`].
    pub fn add(&mut self, answer: &Result<Reading<'_>, Refusal>) -> Result<(), Refusal> {
        match answer {
            Ok(reading) => {
                let records = reading.records();
                let count = u32::try_from(records.len()).unwrap_or(u32::MAX);
                self.add_answer([0, 0, count, reading.warnings()], records)
            }
            Err(refusal) => self.add_answer([refusal.number, u32::try_from(refusal.place).unwrap_or(0), 0, 0], &[]),
        }
    }

    /// The same of the four numbers number, place, records and warnings, whoever made them.
    pub fn add_answer(&mut self, answer: [u32; 4], records: &[Record]) -> Result<(), Refusal> {
        done(calls::tally_add(&mut self.0, answer, records))
    }

    /// Adds another tally: the figures of both lists. Refused as by [`Tally::add`] where a sum would pass the limit; both stay.
    pub fn join(&mut self, other: &Tally) -> Result<(), Refusal> {
        done(calls::tally_join(&mut self.0, &other.0))
    }

    /// Sheets read.
    pub fn read(&self) -> u32 {
        self.counts()[READ]
    }

    pub fn accepted(&self) -> u32 {
        self.counts()[0]
    }

    /// Sheets refused, by whatever number.
    pub fn refused(&self) -> u64 {
        self.refusals().map(|(_, count)| u64::from(count)).sum()
    }

    /// The numbers that refused a sheet, each with how many it refused.
    pub fn refusals(&self) -> impl Iterator<Item = (u32, u32)> {
        (0..).zip(self.counts()).take(NUMBERS).skip(1).filter(|(_, count)| *count > 0)
    }

    pub fn warnings(&self) -> u32 {
        self.counts()[WARNINGS]
    }

    /// The kinds of items, each with how many there are.
    pub fn items(&self) -> impl Iterator<Item = (&'static str, u32)> {
        KINDS.into_iter().zip(self.counts().into_iter().skip(READ + FIRST_KIND))
    }

    /// Ordinal marks: the ones in the two masks of each weekday record.
    pub fn marks(&self) -> u32 {
        self.counts()[MARKS]
    }
}

fn done(number: u32) -> Result<(), Refusal> {
    match number {
        0 => Ok(()),
        _ => Err(Refusal { number, place: 0 }),
    }
}

impl Default for Tally {
    fn default() -> Tally {
        Tally([0; TALLY_BYTES])
    }
}

impl<'a> Sum<&'a Tally> for Result<Tally, Refusal> {
    fn sum<I: Iterator<Item = &'a Tally>>(mut tallies: I) -> Result<Tally, Refusal> {
        tallies.try_fold(Tally::default(), |mut sum, tally| sum.join(tally).map(|()| sum))
    }
}

impl fmt::Debug for Tally {
    fn fmt(&self, f: &mut fmt::Formatter<'_>) -> fmt::Result {
        f.debug_tuple("Tally").field(&self.counts()).finish()
    }
}

/// A small table, a count a line.
impl fmt::Display for Tally {
    fn fmt(&self, f: &mut fmt::Formatter<'_>) -> fmt::Result {
        writeln!(f, "{:24}{:>10}", "sheets read", self.read())?;
        writeln!(f, "{:24}{:>10}", "  accepted", self.accepted())?;
        writeln!(f, "{:24}{:>10}", "  refused", self.refused())?;
        for (number, count) in self.refusals() {
            writeln!(f, "{:24}{count:>10}", format!("    with number {number}"))?;
        }
        writeln!(f, "{:24}{:>10}", "unusual names", self.warnings())?;
        for (kind, count) in self.items() {
            writeln!(f, "{:24}{count:>10}", format!("items: {kind}"))?;
        }
        writeln!(f, "{:24}{:>10}", "marks of weekdays", self.marks())
    }
}
