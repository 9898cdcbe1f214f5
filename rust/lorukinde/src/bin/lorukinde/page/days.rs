//! Which days of a year a rule touches: the library's answers, and nothing else.
use lorukinde::{rule_days, Record, RecordedDay};

pub use lorukinde::Touch;

use super::year::{Day, Year};

/// An answer for each day of the year, for the rule with that number, counted from 0, of a table that a reading wrote.
pub fn touches(table: &[Record], rule: usize, year: Year) -> Result<Vec<Touch>, String> {
    let days: Vec<RecordedDay> = year.each_day().map(recorded).collect();
    let mut answers = vec![Touch::No; days.len()];
    rule_days(table, rule, &days, &mut answers).map_err(|refusal| refusal.to_string())?;
    Ok(answers)
}

fn recorded(day: Day) -> RecordedDay {
    RecordedDay::new(day.year as u32, day.month as u32, day.day as u32)
}
