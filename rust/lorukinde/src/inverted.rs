//! Weeks that run backwards, as those of a winter do.
use std::ops::Range;

use crate::hint::Hint;
use crate::manner::Manner;
use crate::meant::accepts;
use crate::scan::{Scan, SHORT_DIGITS};

const LAST_WEEK: u32 = 53;

/// `week 40-10`: to the end of the year, and from its beginning on.
pub(crate) fn hint(manner: Manner, sheet: &[u8], part: Range<usize>, place: usize) -> Option<Hint> {
    let begin = Scan::new(&sheet[..part.end], place);
    let (first, _, after) = begin.number(SHORT_DIGITS)?;
    let (last, _, end) = after.byte(b'-')?.number(SHORT_DIGITS)?;
    let has_step = end.byte(b'/').is_some();
    let write = format!("{first}-{LAST_WEEK},1-{last}");
    let better = [&sheet[part.start..place], write.as_bytes(), &sheet[end.at..part.end]].concat();
    let is_sure = !has_step && accepts(manner, &better);
    is_sure.then(|| Hint::new(sheet, begin.until(end), write).because("over the year's end"))
}
