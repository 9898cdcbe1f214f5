//! Which sentence of the house profile a part breaks.
use crate::manner::Manner;
use crate::meaning::{Head, Meaning, Separator, Span, Time, MIDNIGHT};
use crate::read_sheet_in;
use crate::record::Record;
use crate::spot::Spot;

/// What is wrong with the rule or the span at the place of a text that edition 1 accepts.
pub(crate) fn wrong(spot: &Spot<'_>) -> String {
    let mut table = vec![Record::EMPTY; spot.text.len()];
    let mut latest = 0; // when the spans of the rule so far end
    if let Ok(reading) = read_sheet_in(Manner::Edition1, spot.text, &mut table) {
        for placed in reading.placed() {
            let broken = match placed.meaning {
                Meaning::Head(head) => {
                    latest = 0;
                    separator(&head)
                }
                Meaning::Span(span) => form(&span).or_else(|| order(&span, &mut latest)),
                _ => None,
            };
            if let Some(broken) = broken.filter(|_| placed.place == spot.place) {
                return broken;
            }
        }
    }
    "the house does not allow this".into()
}

fn separator(head: &Head) -> Option<String> {
    let sign = match head.separator {
        Separator::Normal => return None,
        Separator::Additional => ",",
        Separator::Fallback => "||",
    };
    Some(format!("a rule after `{sign}`: rules of house sheets are parted by `;` alone"))
}

fn form(span: &Span) -> Option<String> {
    let broken = match (span.start, span.end) {
        (Time::Sun(..), _) | (_, Time::Sun(..)) => "a time by the sun: house sheets have times by the clock alone",
        (_, Time::Clock(end)) if end > MIDNIGHT => "a time after 24:00: the times of house sheets go up to 24:00",
        _ if span.repeat.is_some() => "times that repeat: the times of house sheets have no `/`",
        _ if span.open_end => "an open end: the times of house sheets end at a time",
        _ => return None,
    };
    Some(broken.into())
}

fn order(span: &Span, latest: &mut i32) -> Option<String> {
    let (start, end) = match (span.start, span.end) {
        (Time::Clock(start), Time::Clock(end)) => (start, end),
        _ => return None,
    };
    let earlier = std::mem::replace(latest, end);
    if end <= start {
        return Some("the time ends not after its start: in house sheets it ends on the same day".into());
    }
    let overlaps = start < earlier;
    overlaps.then(|| {
        let earlier = Time::Clock(earlier);
        format!("the time starts before {earlier}, when an earlier one ends: in house sheets the times of a rule rise")
    })
}
