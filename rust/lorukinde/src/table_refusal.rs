//! Why what is asked of a table is refused.
use std::error::Error;
use std::fmt;

/// A refusal of a call that is asked of a table of records: its number. It has no place in a sheet.
#[derive(Clone, Copy, Debug, PartialEq, Eq, Hash)]
pub struct TableRefusal {
    pub number: u32,
}

impl TableRefusal {
    pub const NO_FIT: u32 = 16;
    pub const NO_DAYS: u32 = 20;
    pub const SHORT_LIST: u32 = 21;
    pub const FEW_ANSWERS: u32 = 24;

    /// What a call's number says.
    pub(crate) fn of(number: u32) -> Result<(), TableRefusal> {
        match number {
            0 => Ok(()),
            number => Err(TableRefusal { number }),
        }
    }
}

impl fmt::Display for TableRefusal {
    fn fmt(&self, f: &mut fmt::Formatter<'_>) -> fmt::Result {
        f.write_str(match self.number {
            TableRefusal::NO_FIT => "the records of the table do not fit together",
            TableRefusal::NO_DAYS => "there is no such rule, or a day is not in the calendar of the years 1900 to 9999",
            TableRefusal::SHORT_LIST => "the list has fewer entries than there are rules",
            TableRefusal::FEW_ANSWERS => "there is room for fewer answers than days",
            _ => "a refusal that is not known here",
        })
    }
}

impl Error for TableRefusal {}
