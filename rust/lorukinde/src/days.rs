//! Which recorded days a rule's day selectors touch.
use std::cmp::Ordering;
use std::fmt;

use crate::calls;
use crate::reading::Rule;
use crate::record::Record;
use crate::table_refusal::TableRefusal;

/// A day: year, month and day of the month, kept as the 12 little-endian bytes that the library reads. It may be none of the calendar: a call then refuses it.
#[derive(Clone, Copy, PartialEq, Eq, Hash)]
#[repr(transparent)]
pub struct RecordedDay([u8; 12]);

impl RecordedDay {
    pub fn new(year: u32, month: u32, day: u32) -> RecordedDay {
        let mut bytes = [0; 12];
        for (four, number) in bytes.chunks_exact_mut(4).zip([year, month, day]) {
            four.copy_from_slice(&number.to_le_bytes());
        }
        RecordedDay(bytes)
    }

    /// Year, month and day.
    pub fn numbers(&self) -> [u32; 3] {
        let mut numbers = [0; 3];
        for (number, four) in numbers.iter_mut().zip(self.0.chunks_exact(4)) {
            *number = u32::from_le_bytes([four[0], four[1], four[2], four[3]]);
        }
        numbers
    }

    /// Whether it is a day of the calendar, of the years 1900 to 9999. That is asked of the library: a rule without items touches every such day.
    pub fn is_known(&self) -> bool {
        const HEAD: i32 = 1;
        let mut words = [0; 16];
        words[0] = HEAD;
        rule_days(&[Record::from_words(words)], 0, &[*self], &mut [Touch::No]).is_ok()
    }
}

/// By year, month and day.
impl Ord for RecordedDay {
    fn cmp(&self, other: &RecordedDay) -> Ordering {
        self.numbers().cmp(&other.numbers())
    }
}

impl PartialOrd for RecordedDay {
    fn partial_cmp(&self, other: &RecordedDay) -> Option<Ordering> {
        Some(self.cmp(other))
    }
}

impl fmt::Debug for RecordedDay {
    fn fmt(&self, f: &mut fmt::Formatter<'_>) -> fmt::Result {
        fmt::Display::fmt(self, f)
    }
}

impl fmt::Display for RecordedDay {
    fn fmt(&self, f: &mut fmt::Formatter<'_>) -> fmt::Result {
        let [year, month, day] = self.numbers();
        write!(f, "{year:04}-{month:02}-{day:02}")
    }
}

/// A day's answer as the library writes it.
#[derive(Clone, Copy, Default)]
#[repr(transparent)]
pub(crate) struct DayAnswer([u8; 4]);

/// Whether a rule's day selectors touch a day. `Undecided` is said of easter, weekdays of a month, holidays, offsets and what else the selectors leave open.
#[derive(Clone, Copy, Debug, PartialEq, Eq, Hash)]
pub enum Touch {
    No,
    Yes,
    Undecided,
}

impl Touch {
    fn of(answer: DayAnswer) -> Touch {
        match u32::from_le_bytes(answer.0) {
            0 => Touch::No,
            1 => Touch::Yes,
            _ => Touch::Undecided,
        }
    }
}

impl fmt::Display for Touch {
    fn fmt(&self, f: &mut fmt::Formatter<'_>) -> fmt::Result {
        f.write_str(match self {
            Touch::No => "no",
            Touch::Yes => "yes",
            Touch::Undecided => "undecided",
        })
    }
}

/// Runs the rule numbered `rule`, from 0, of a table over days: an answer for each. Answers past the days stay, and all of them where the call is refused.
pub fn rule_days(table: &[Record], rule: usize, days: &[RecordedDay], answers: &mut [Touch]) -> Result<(), TableRefusal> {
    let mut written = vec![DayAnswer::default(); answers.len()];
    TableRefusal::of(calls::rule_days(table, rule, days, &mut written))?;
    for (answer, written) in answers.iter_mut().zip(&written[..days.len()]) {
        *answer = Touch::of(*written);
    }
    Ok(())
}

impl Rule<'_> {
    /// Whether the rule's day selectors touch a day. Its times, state and note do not matter.
    pub fn touches(&self, day: RecordedDay) -> Result<Touch, TableRefusal> {
        let mut answer = [Touch::No];
        rule_days(self.table(), 0, &[day], &mut answer)?;
        Ok(answer[0])
    }

    /// The same for many days at once.
    pub fn days(&self, days: &[RecordedDay]) -> Result<Vec<Touch>, TableRefusal> {
        let mut answers = vec![Touch::No; days.len()];
        rule_days(self.table(), 0, days, &mut answers)?;
        Ok(answers)
    }
}
