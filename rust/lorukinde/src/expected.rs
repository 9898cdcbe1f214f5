//! What was completed last before the place where reading could not go on, and so what may stand there.
//!
//! The reader itself tells: up to what was completed last the text is one that it accepts, and the last record says what that was.
use crate::manner::Manner;
use crate::meaning::{Kind, Meaning};
use crate::names::STATES;
use crate::read_sheet_in;
use crate::record::Record;

/// What was completed last in a rule.
#[derive(Clone, Copy, Debug, PartialEq, Eq)]
pub(crate) enum Last {
    /// The rule has only begun.
    Nothing,
    Item(Kind),
    /// A comma, after which a list of this kind goes on.
    Comma(Kind),
    Colon,
    /// `week`, before the numbers of weeks.
    Week,
    /// `24/7`
    Always,
    /// `open`, `closed`, `off`, `unknown`
    State,
    Note,
}

/// How far a rule was read.
#[derive(Clone, Copy, Debug, PartialEq, Eq)]
pub(crate) struct Stage {
    pub last: Last,
    /// Where what was completed ends, before the blanks after it.
    pub done: usize,
    /// Where the last item begins, or the rule if it has none.
    pub item: usize,
    /// The last item, if the rule has one.
    pub meaning: Option<Meaning>,
}

/// How far the rule was read that could not be read on at this place of a text. None if the text before the place is not one that
/// was read up to there.
pub(crate) fn stage(manner: Manner, text: &[u8], place: usize) -> Option<Stage> {
    let before = &text[..place];
    let done = before.len() - before.iter().rev().take_while(|byte| **byte == b' ').count();
    let read = &before[..done];
    let begun = |last| Some(Stage { last, done, item: place, meaning: None });
    match read {
        [] | [.., b';'] | [.., b'|', b'|'] => begun(Last::Nothing),
        [.., b','] if done < place => begun(Last::Nothing), // with a blank after it, a comma parts rules
        [list @ .., b','] => {
            let stage = completed(manner, list)?;
            match stage.last {
                Last::Item(kind) => Some(Stage { last: Last::Comma(kind), done, ..stage }),
                _ => None,
            }
        }
        [.., b':'] => begun(Last::Colon),
        [.., b'w', b'e', b'e', b'k'] => begun(Last::Week),
        _ => completed(manner, read),
    }
}

/// What a text that is accepted ends with.
fn completed(manner: Manner, text: &[u8]) -> Option<Stage> {
    let mut table = vec![Record::EMPTY; text.len()];
    let reading = read_sheet_in(manner.shapes(), text, &mut table).ok()?;
    let placed = reading.placed().last()?;
    let last = match placed.meaning.kind() {
        _ if text.ends_with(b"\"") => Last::Note,
        _ if ends_with_state(text) => Last::State,
        Kind::NoItem => Last::Always,
        kind => Last::Item(kind),
    };
    let meaning = Some(placed.meaning).filter(|meaning| meaning.kind() != Kind::NoItem);
    Some(Stage { last, done: text.len(), item: placed.place, meaning })
}

fn ends_with_state(text: &[u8]) -> bool {
    let letters = text.iter().rev().take_while(|byte| byte.is_ascii_alphabetic()).count();
    let word = &text[text.len() - letters..];
    STATES.iter().any(|state| state.as_bytes().eq_ignore_ascii_case(word))
}

const REST: &str = "`off`, a note in quotes, or `;` and the next rule";

/// What may stand at a place of a text that was read so far.
pub(crate) fn expected(stage: &Stage, text: &[u8], place: usize) -> String {
    let item = text.get(stage.item..stage.done).unwrap_or_default();
    match text.get(place).and_then(|byte| begun(stage.last, item, *byte)) {
        Some(more) => more.into(),
        None => following(stage, item),
    }
}

/// What the byte at the place may have begun: more of the item that was completed, or a time in brackets.
fn begun(last: Last, item: &[u8], byte: u8) -> Option<&'static str> {
    let is_holiday = item.starts_with(b"PH") || item.starts_with(b"SH");
    let is_single = !item.contains(&b'-') && !item.contains(&b'[') && !is_holiday;
    match (last, byte) {
        (Last::Item(kind), b'-') if is_single => after_dash(kind),
        (Last::Item(Kind::Days), b'[') if is_single => Some("marks from 1 to 5 (`Mo[1]`, `Mo[1,3]`, `Mo[1-3]`, `Mo[-1]`)"),
        (Last::Item(Kind::Times) | Last::State | Last::Note | Last::Always | Last::Week, b'(') => None,
        (Last::Comma(kind), b'(') if kind != Kind::Times => None,
        (_, b'(') => Some("an event with its offset in brackets (`(sunset-1:00)`)"),
        _ => None,
    }
}

fn following(stage: &Stage, item: &[u8]) -> String {
    match stage.last {
        Last::Nothing => {
            "days (`Mo-Fr`), a date (`2020 Dec 25`), times (`09:00-18:00`), `24/7`, `off` or a note in quotes".into()
        }
        Last::Item(kind) => format!("{}{REST}", after_item(kind)),
        Last::Comma(kind) => format!("{} after the comma", another(kind)),
        Last::Colon => "a blank, and weekdays or times, after the colon".into(),
        Last::Week => "a blank and the number of a week (`week 5`)".into(),
        Last::Always => REST.into(),
        Last::State => "a note in quotes, or `;` and the next rule".into(),
        Last::Note if is_note_alone(stage, item) => "`:` and days or times, or `;` and the next rule".into(),
        Last::Note => "`;` and the next rule".into(),
    }
}

/// Whether a rule is a note so far, to which `:` may be added.
fn is_note_alone(stage: &Stage, rule: &[u8]) -> bool {
    stage.meaning.is_none() && rule.starts_with(b"\"")
}

fn after_item(kind: Kind) -> &'static str {
    match kind {
        Kind::Years => "dates, weeks, weekdays, times, ",
        Kind::MonthDays => "weeks, weekdays, times (`09:00-18:00`), ",
        Kind::Weeks => "weekdays, times (`09:00-18:00`), ",
        Kind::Days => "times (`09:00-18:00`), ",
        Kind::Times | Kind::NoItem => "",
    }
}

fn after_dash(kind: Kind) -> Option<&'static str> {
    match kind {
        Kind::Years => Some("a year of four digits after the `-` (`2020-2022`)"),
        Kind::MonthDays => Some("a date, a day or a month after the `-` (`Dec 24-26`, `Jan-Mar`)"),
        Kind::Weeks => Some("the number of a week after the `-` (`week 1-5`)"),
        Kind::Days => Some("a weekday after the `-` (`Mo-Fr`)"),
        Kind::Times | Kind::NoItem => None,
    }
}

fn another(kind: Kind) -> &'static str {
    match kind {
        Kind::Years => "another year",
        Kind::MonthDays => "another month or date",
        Kind::Weeks => "another number of a week",
        Kind::Days => "another weekday or holiday (`Tu`, `PH`)",
        Kind::Times | Kind::NoItem => "other times (`14:00-18:00`)",
    }
}
