//! Which rules touch which month.
use std::fmt;

use crate::calls;
use crate::record::Record;
use crate::table_refusal::TableRefusal;

/// An entry for a rule: its head's number in the table, from 0, and the months that its month-day items can touch in any year. It is kept as the 8
/// little-endian bytes that the library writes.
#[derive(Clone, Copy, Default, PartialEq, Eq, Hash)]
#[repr(transparent)]
pub struct Entry([u8; 8]);

impl Entry {
    /// The number of the rule's head among the records.
    pub fn head(&self) -> u32 {
        u32::from_le_bytes([self.0[0], self.0[1], self.0[2], self.0[3]])
    }

    /// The months: bit m - 1 for month m.
    pub fn months(&self) -> u32 {
        u32::from_le_bytes([self.0[4], self.0[5], self.0[6], self.0[7]])
    }

    /// Whether the rule can touch a month, 1 to 12.
    pub fn can_touch(&self, month: u32) -> bool {
        (1..=12).contains(&month) && self.months() >> (month - 1) & 1 == 1
    }
}

impl fmt::Debug for Entry {
    fn fmt(&self, f: &mut fmt::Formatter<'_>) -> fmt::Result {
        f.debug_struct("Entry").field("head", &self.head()).field("months", &self.months()).finish()
    }
}

/// Builds the list of a table: an entry for each rule. Entries past the rules stay, and all of them where the call is refused.
pub fn rule_months(table: &[Record], entries: &mut [Entry]) -> Result<(), TableRefusal> {
    TableRefusal::of(calls::rule_months(table, entries))
}

/// The list of a table, as long as it has rules.
pub fn months(table: &[Record]) -> Result<Vec<Entry>, TableRefusal> {
    const HEAD: i32 = 1;
    let rules = table.iter().filter(|record| record.words()[0] == HEAD).count();
    let mut entries = vec![Entry::default(); rules];
    rule_months(table, &mut entries)?;
    Ok(entries)
}

/// Renews the list of a sheet after a part of it was exchanged for one with as many rules: `rules` is how many the sheet has, `first` the number of the part's
/// first rule, `old_records` how many records the part had, and the table has its new ones, as [`read_part`](crate::read_part) writes them.
pub fn renew(
    entries: &mut [Entry],
    rules: usize,
    first: usize,
    old_records: usize,
    table: &[Record],
) -> Result<(), TableRefusal> {
    TableRefusal::of(calls::renew_months(entries, rules, first, old_records, table))
}
