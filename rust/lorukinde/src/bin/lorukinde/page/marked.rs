//! A sheet's text with marks: what is refused is underlined, the place where reading failed stands out, and remarks are dotted.
use std::ops::Range;

use super::html::Html;

#[derive(Clone, Copy, Debug, PartialEq, Eq)]
pub enum Kind {
    /// A part that is refused.
    Refused,
    /// Where it is refused.
    Place,
    /// What was read, but is worth a look.
    Remark,
}

#[derive(Clone, Debug)]
pub struct Mark {
    pub range: Range<usize>,
    pub kind: Kind,
    /// The number of what is said of it, shown after its end.
    pub number: Option<usize>,
}

/// Writes the text, cut where a mark begins or ends. `refer` writes the number of a mark.
pub fn write(html: &mut Html, text: &[u8], marks: &[Mark], refer: impl Fn(&mut Html, usize)) {
    let mut cuts: Vec<usize> = marks.iter().flat_map(|mark| [mark.range.start, mark.range.end]).chain([0, text.len()]).collect();
    cuts.sort_unstable();
    cuts.dedup();
    for (i, begin) in cuts.iter().enumerate() {
        // A place of no bytes is where something is missing.
        if marks.iter().any(|mark| mark.kind == Kind::Place && mark.range == (*begin..*begin)) {
            piece(html, b"", |kind| kind == Kind::Place);
        }
        for mark in marks.iter().filter(|mark| mark.range.end == *begin) {
            mark.number.into_iter().for_each(|number| refer(html, number));
        }
        if let Some(end) = cuts.get(i + 1) {
            let over = |kind| marks.iter().any(|mark| mark.kind == kind && mark.range.start <= *begin && *end <= mark.range.end);
            piece(html, &text[*begin..*end], over);
        }
    }
}

/// A piece of the text, over which are marks of these kinds.
fn piece(html: &mut Html, text: &[u8], over: impl Fn(Kind) -> bool) {
    let tags = [(Kind::Refused, "<u>", "</u>"), (Kind::Place, "<mark>", "</mark>"), (Kind::Remark, "<i>", "</i>")];
    let around = || tags.iter().filter(|(kind, _, _)| over(*kind));
    for (_, begin, _) in around() {
        html.markup(begin);
    }
    html.bytes(text);
    for (_, _, end) in around().rev() {
        html.markup(end);
    }
}

#[cfg(test)]
mod tests {
    use super::*;

    fn marked(text: &str, marks: &[(Range<usize>, Kind, Option<usize>)]) -> String {
        let marks: Vec<Mark> =
            marks.iter().map(|(range, kind, number)| Mark { range: range.clone(), kind: *kind, number: *number }).collect();
        let (mut html, mut out) = (Html::default(), Vec::new());
        write(&mut html, text.as_bytes(), &marks, |html, number| {
            html.text(format_args!("({number})"));
        });
        html.finish(false, &mut out);
        String::from_utf8(out).unwrap()
    }

    #[test]
    fn marks() {
        use Kind::*;
        assert_eq!(marked("Mo", &[]), "Mo");
        assert_eq!(
            marked("Mo 9-17; Tu", &[(0..7, Refused, Some(1)), (3..7, Place, None)]),
            "<u>Mo </u><u><mark>9-17</mark></u>(1); Tu"
        );
        assert_eq!(marked("Mo,", &[(0..3, Refused, Some(1)), (3..3, Place, None)]), "<u>Mo,</u><mark></mark>(1)");
        assert_eq!(marked("", &[(0..0, Refused, Some(1)), (0..0, Place, None)]), "<mark></mark>(1)");
        assert_eq!(marked("mo tu", &[(0..2, Remark, Some(1)), (3..5, Remark, Some(2))]), "<i>mo</i>(1) <i>tu</i>(2)");
        assert_eq!(marked("abcd", &[(0..3, Remark, Some(1)), (1..4, Remark, Some(2))]), "<i>a</i><i>bc</i>(1)<i>d</i>(2)");
        assert_eq!(marked("<b>", &[(1..2, Remark, None)]), "&lt;<i>b</i>&gt;");
    }
}
