//! What is to be said of a sheet's text: parts that are refused, and remarks on what was read.
use std::ops::Range;

use lorukinde::{characters, explain_meant, unusual_names, Position, Reading, Refusal, Remark};

use super::html::Html;
use super::marked::{Kind, Mark};
use super::texts::{fill, Texts};
use crate::sheet::Sheet;

#[derive(Default)]
pub struct Findings(Vec<Finding>);

struct Finding {
    /// Of what it is said.
    range: Range<usize>,
    /// For a part that is refused, where.
    refused_at: Option<Range<usize>>,
    /// What kind of finding it is, and where.
    head: String,
    sentence: Said,
    /// What to write instead.
    write: Option<Said>,
}

/// A sentence, with the attribute of its language if that is not the page's.
struct Said(&'static str, String);

impl Said {
    fn write(&self, html: &mut Html, element: &'static str) {
        html.markup(element).markup(self.0).markup(">").sentence(&self.1);
    }
}

impl Findings {
    pub fn refused(&mut self, texts: &Texts, sheet: &Sheet<'_>, part: Range<usize>, refusal: &Refusal) {
        let explanation = explain_meant(sheet.manner, sheet.text(), part.clone(), refusal);
        let place = word_at(sheet.text(), explanation.place, part.end);
        let refused = without_blanks(sheet.text(), part);
        self.0.push(Finding {
            range: refused.start..refused.end.max(place.end),
            head: fill(texts.refused, &[&refusal.number, &column(sheet, place.start)]),
            refused_at: Some(place),
            sentence: Said(texts.of_english(), explanation.wrong),
            write: match explanation.hint {
                Some(hint) => Some(Said(texts.of_english(), hint.to_string())),
                None => explanation.in_edition_2.then(|| Said("", texts.in_edition_2.to_string())),
            },
        });
    }

    /// The names with unusual capitals of an accepted part.
    pub fn unusual(&mut self, texts: &Texts, sheet: &Sheet<'_>, part: Range<usize>, reading: &Reading<'_>) {
        if reading.warnings() == 0 {
            return;
        }
        for name in unusual_names(sheet.text(), part) {
            self.0.push(Finding {
                range: name.place..name.place + name.found.len(),
                refused_at: None,
                head: fill(texts.remark, &[&column(sheet, name.place)]),
                sentence: Said("", fill(texts.unusual, &[&name.found, &name.usual])),
                write: None,
            });
        }
    }

    pub fn remarks(&mut self, texts: &Texts, sheet: &Sheet<'_>, remarks: &[Remark]) {
        for remark in remarks {
            self.0.push(Finding {
                range: word_at(sheet.text(), remark.place, sheet.text().len()),
                refused_at: None,
                head: fill(texts.remark, &[&column(sheet, remark.place)]),
                sentence: Said(texts.of_english(), remark.sentence.clone()),
                write: remark.hint.as_ref().map(|hint| Said(texts.of_english(), hint.to_string())),
            });
        }
    }

    /// Puts the findings in the order of the text.
    pub fn sort(&mut self) {
        self.0.sort_by_key(|finding| finding.range.start);
    }

    /// The marks that the findings, by their numbers, make in the text.
    pub fn marks(&self) -> Vec<Mark> {
        let mut marks = Vec::new();
        for (i, finding) in self.0.iter().enumerate() {
            let kind = if finding.refused_at.is_some() { Kind::Refused } else { Kind::Remark };
            marks.push(Mark { range: finding.range.clone(), kind, number: Some(i + 1) });
            marks.extend(finding.refused_at.clone().map(|range| Mark { range, kind: Kind::Place, number: None }));
        }
        marks
    }

    /// Writes the findings of the sheet with that number, each where [`refer`] leads to.
    pub fn write(&self, html: &mut Html, sheet: usize) {
        if self.0.is_empty() {
            return;
        }
        html.markup("<ol class=findings>");
        for (i, finding) in self.0.iter().enumerate() {
            html.markup("<li id=s").text(sheet).markup("f").text(i + 1);
            html.markup(if finding.refused_at.is_some() { "><b class=bad>" } else { "><b>" }).text(&finding.head).markup("</b> ");
            finding.sentence.write(html, "<span");
            html.markup("</span>");
            if let Some(write) = &finding.write {
                write.write(html, "<p class=write");
            }
        }
        html.markup("</ol>");
    }
}

/// A finding's number, as a link to it.
pub fn refer(html: &mut Html, sheet: usize, number: usize) {
    html.markup("<sup><a href=#s").text(sheet).markup("f").text(number).markup(">").text(number).markup("</a></sup>");
}

fn column(sheet: &Sheet<'_>, place: usize) -> usize {
    Position::of(sheet.text(), place).column
}

/// What stands from a place up to the next blank, comma or semicolon; where one of these stands itself, that.
fn word_at(text: &[u8], place: usize, end: usize) -> Range<usize> {
    let rest = &text[place..end];
    let length = rest.iter().take_while(|byte| !b" ,;".contains(byte)).count();
    match characters(rest).next() {
        Some((_, first)) if length == 0 => place..place + first.bytes(),
        _ => place..place + length,
    }
}

fn without_blanks(text: &[u8], part: Range<usize>) -> Range<usize> {
    let is_text = |at: &usize| text[*at] != b' ';
    let start = part.clone().find(is_text).unwrap_or(part.end);
    start..part.rev().find(is_text).map_or(start, |last| last + 1)
}
