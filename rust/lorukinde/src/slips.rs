//! Common slips: what to write instead of what stands where a text is refused.
//!
//! A slip is recognised by the refusal's number, its place, and the bytes there. What it proposes is tried before it is shown: the
//! text with the proposal has to be accepted, or to be refused later than before. So no hint is shown that does not help.
mod dates;
mod quotes;
mod signs;
mod times;
mod words;

use std::ops::Range;

use crate::expected::stage;
use crate::manner::Manner;
use crate::place::shown;
use crate::record::Record;
use crate::refusal::Refusal;
use crate::spot::Spot;
use crate::{hint as shown_hint, read_sheet_in};

/// What a slip proposes, while it is tried.
#[derive(Clone, Debug)]
struct Hint {
    /// The bytes of the text that are to be replaced; none where something is to be put in.
    range: Range<usize>,
    /// What to write there; where it is more than one, the writer has to say which is meant.
    write: Vec<String>,
    /// What stands in the range, to be shown.
    found: String,
    because: String,
    /// A sign or a blank between two items, where the second may have a slip too, as in `Mo – Mi`.
    joins: bool,
}

impl Hint {
    fn new(text: &[u8], range: Range<usize>, write: impl Into<String>, because: impl Into<String>) -> Hint {
        let found = shown(&text[range.clone()]);
        Hint { range, write: vec![write.into()], found, because: because.into(), joins: false }
    }

    /// What is written between two items.
    fn joining(text: &[u8], range: Range<usize>, sign: &str, because: &str) -> Hint {
        Hint { joins: true, ..Hint::new(text, range, sign, because) }
    }
}

type Slip = fn(&Spot<'_>) -> Option<Hint>;

/// The slips where no shape fits, those first that look at more of the text.
const SHAPES: [Slip; 24] = [
    dates::date,
    dates::year_after_date,
    times::always,
    times::spans,
    times::from_a_time_on,
    times::repeat,
    signs::dash,
    words::name,
    words::day_offset,
    words::unit_of_time,
    words::ordinal_letters,
    quotes::other_quotes,
    signs::other_blank,
    signs::nothing_to_see,
    signs::colon_after_days,
    signs::blank_before_sign,
    signs::and,
    signs::full_stop,
    signs::comma_at_the_end,
    signs::blank_for_comma,
    signs::missing_blank,
    signs::missing_comma,
    signs::semicolon_for_comma,
    signs::missing_semicolon,
];

/// The slips of an item after a sign that joins it to another.
const ITEMS: [Slip; 3] = [dates::date, times::spans, words::name];

/// What to write instead of what stands in a text that is a part of a sheet, which begins at a place of it: the first slip whose
/// proposal helps.
pub(crate) fn hint(manner: Manner, spot: &Spot<'_>, begin: usize) -> Option<shown_hint::Hint> {
    let slips: &[Slip] = match spot.number {
        Refusal::NO_SHAPE => &SHAPES,
        Refusal::POINT_IN_TIME => &[times::spans],
        Refusal::BROKEN_QUOTE => &[quotes::nothing_inside, quotes::never_closed],
        _ => &[],
    };
    let found = slips.iter().find_map(|slip| {
        let hint = slip(spot)?;
        that_helps(manner, spot, hint.clone()).or_else(|| with_next(manner, spot, &hint))
    });
    let Hint { range, write, found, because, .. } = found?;
    Some(shown_hint::Hint::of_slip(range.start + begin..range.end + begin, write, found, because))
}

/// The hint, with those of its proposals that help.
fn that_helps(manner: Manner, spot: &Spot<'_>, mut hint: Hint) -> Option<Hint> {
    let range = hint.range.clone();
    hint.write.retain(|write| still_refused(manner, spot, &range, write).is_none());
    (!hint.write.is_empty()).then_some(hint)
}

/// The text with this written in the range, and its refusal, where that does not help: where it is refused and not later than before.
fn still_refused(manner: Manner, spot: &Spot<'_>, range: &Range<usize>, write: &str) -> Option<(Vec<u8>, Refusal)> {
    let text = [&spot.text[..range.start], write.as_bytes(), &spot.text[range.end..]].concat();
    let mut table = vec![Record::EMPTY; text.len()];
    let refusal = read_sheet_in(manner, &text, &mut table).err()?;
    // What breaks the house profile is seen only in a text that is else good: it stood there before.
    let is_of_house = matches!(refusal.number, Refusal::HOUSE_FORM | Refusal::HOUSE_ORDER);
    let stood_before = is_of_house && refusal.place < range.start;
    let end = range.start + write.len();
    // A sign, or one left out, has helped only if something more was read after it.
    let is_complete = write.ends_with(|last: char| last.is_alphanumeric() || "\"+".contains(last));
    let reached = if is_complete { end } else { end + 1 };
    let is_later = refusal.place >= reached && refusal.place - end + range.end > spot.place;
    (!stood_before && !is_later).then_some((text, refusal))
}

/// A sign that does not help alone, with what helps the item after it.
fn with_next(manner: Manner, spot: &Spot<'_>, hint: &Hint) -> Option<Hint> {
    let sign = hint.write.first().filter(|_| hint.joins)?;
    let (text, refusal) = still_refused(manner, spot, &hint.range, sign)?;
    let after = Spot { text: &text, number: refusal.number, place: refusal.place, stage: stage(manner, &text, refusal.place) };
    let next = ITEMS.iter().find_map(|slip| that_helps(manner, &after, slip(&after)?))?;
    let end = hint.range.start + sign.len();
    let between = std::str::from_utf8(text.get(hint.range.start..next.range.start)?).ok()?;
    let range = hint.range.start..next.range.end.checked_sub(end)? + hint.range.end;
    let found = shown(&spot.text[range.clone()]);
    let write = next.write.iter().map(|write| format!("{between}{write}")).collect();
    that_helps(manner, spot, Hint { range, write, found, because: next.because, joins: false })
}
