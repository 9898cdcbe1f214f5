//! Stands for rules/mod.rs, which is not among the papers: the fields that the parser fills.
pub mod day;
pub mod time;

use alloc::sync::Arc;
use alloc::vec::Vec;

#[derive(Clone, Debug)]
pub struct OpeningHoursExpression {
    pub rules: Vec<RuleSequence>,
}

#[derive(Clone, Debug)]
pub struct RuleSequence {
    pub day_selector: day::DaySelector,
    pub time_selector: time::TimeSelector,
    pub kind: RuleKind,
    pub operator: RuleOperator,
    pub comment: Arc<str>,
}

#[derive(Clone, Copy, Debug)]
pub enum RuleKind {
    Open,
    Closed,
    Unknown,
}

#[derive(Clone, Copy, Debug)]
pub enum RuleOperator {
    Normal,
    Additional,
    Fallback,
}
