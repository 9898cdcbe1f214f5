//! A rule with nothing in it, and the separators around it.
use std::fmt;
use std::ops::Range;

use crate::hint::Hint;
use crate::manner::Manner;
use crate::parts::parts_in;
use crate::remarks::is_doubtful;

/// An empty rule: the separators that stand before and after it, if it is not the sheet's first or last.
pub(crate) struct Empty<'a> {
    before: Option<Separator<'a>>,
    after: Option<Separator<'a>>,
}

struct Separator<'a> {
    sign: &'a str,
    range: Range<usize>,
}

const SIGNS: [&str; 3] = [";", ",", "||"];

impl Empty<'_> {
    /// The empty rule at the place of its refusal, which is after the blanks before it.
    pub fn at(sheet: &[u8], place: usize) -> Empty<'static> {
        let (earlier, later) = sheet.split_at(place);
        let done = place - earlier.iter().rev().take_while(|byte| **byte == b' ').count();
        let before = SIGNS.iter().find(|sign| sheet[..done].ends_with(sign.as_bytes()));
        let after = SIGNS.iter().find(|sign| later.starts_with(sign.as_bytes()));
        Empty {
            before: before.map(|sign| Separator { sign, range: done - sign.len()..place }),
            after: after.map(|sign| Separator { sign, range: place..place + sign.len() }),
        }
    }

    /// One of the two separators is too many. Which one is sure at the sheet's ends, and where both are the same.
    fn superfluous(&self) -> Option<Range<usize>> {
        let superfluous = match (&self.before, &self.after) {
            (Some(before), Some(after)) if before.sign != after.sign => return None,
            (before, after) => after.as_ref().or(before.as_ref())?,
        };
        Some(superfluous.range.clone())
    }

    /// That it is left out.
    pub fn hint(&self, sheet: &[u8]) -> Option<Hint> {
        Some(Hint::new(sheet, self.superfluous()?, ""))
    }

    /// That it is left out, if fewer parts are then refused and nothing in the sheet is doubtful.
    pub fn hint_of_what_is_meant(&self, manner: Manner, sheet: &[u8]) -> Option<Hint> {
        let range = self.superfluous()?;
        let better = [&sheet[..range.start], &sheet[range.end..]].concat();
        let refused = |sheet: &[u8]| parts_in(manner, sheet).filter(|part| part.reading.is_err()).count();
        let is_sure = refused(&better) < refused(sheet) && !is_doubtful(manner, &better);
        is_sure.then(|| Hint::new(sheet, range, ""))
    }
}

impl fmt::Display for Empty<'_> {
    fn fmt(&self, f: &mut fmt::Formatter<'_>) -> fmt::Result {
        match (&self.before, &self.after) {
            (None, None) => write!(f, "nothing stands here: expected a rule (`Mo-Fr 09:00-18:00`)"),
            (Some(before), None) => write!(f, "nothing stands after the last `{}`: expected a rule", before.sign),
            (None, Some(after)) => write!(f, "nothing stands before the first `{}`: expected a rule", after.sign),
            (Some(before), Some(after)) => {
                write!(f, "nothing stands between `{}` and `{}`: expected a rule", before.sign, after.sign)
            }
        }
    }
}
