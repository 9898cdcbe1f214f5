//! `lorukinde page`: one page of HTML that shows each sheet, what is refused of it, and each rule with the year's days that it touches.
mod calendar;
mod days;
mod findings;
mod frame;
mod html;
mod marked;
mod reasons;
mod rule;
mod stretches;
mod texts;
mod year;

use std::collections::HashMap;
use std::ffi::OsStr;
use std::fmt::Display;
use std::ops::Range;
use std::os::unix::ffi::OsStrExt;

use lorukinde::{Reading, Record, State};

use crate::arguments::{Run, STANDARD_INPUT};
use crate::input::SHEET_ARGUMENT;
use crate::sheet::{Found, Sheet};
use days::Touch;
use findings::Findings;
use html::Html;
use rule::{Place, Shown};
use texts::{counted, fill, Texts};

pub use year::Year;

/// No browser is happy with a page of more bytes.
const MOST_BYTES: usize = 1 << 27;
/// After so many calendars one that the page has already is not shown again, so that a page of a thousand sheets opens quickly.
const MANY_CALENDARS: usize = 100;

/// A page in the making. The list of sheets at its top is known when all were read, so everything is kept until then.
pub struct Page {
    texts: &'static Texts,
    year: Year,
    list: Html,
    refused: Vec<usize>,
    unread: Html,
    sheets: Html,
    count: usize,
    /// Where each calendar stands: a state, and the days touched.
    calendars: HashMap<(u8, Vec<u8>), Place>,
    /// How many calendars are shown.
    shown: usize,
}

impl Page {
    pub fn new(run: &Run) -> Page {
        Page {
            texts: Texts::of(run.language.unwrap_or_default()),
            year: run.year,
            list: Html::default(),
            refused: Vec::new(),
            unread: Html::default(),
            sheets: Html::default(),
            count: 0,
            calendars: HashMap::new(),
            shown: 0,
        }
    }

    /// Whether another sheet may be added.
    pub fn has_room(&self) -> bool {
        self.sheets.bytes_so_far() < MOST_BYTES
    }

    /// Adds a sheet, and answers what was found in it.
    pub fn add(&mut self, sheet: &Sheet<'_>, table: &mut [Record]) -> Found {
        self.count += 1;
        let (mut findings, mut rules) = (Findings::default(), Html::default());
        let (mut place, mut refused) = (Place { sheet: self.count, rule: 0 }, 0);
        let found = sheet.each_part(table, |part, reading, remarks| {
            match reading {
                Ok(reading) => {
                    findings.unusual(self.texts, sheet, part.clone(), &reading);
                    self.rules(&mut rules, sheet, part, &reading, &mut place);
                }
                Err(refusal) => {
                    refused += 1;
                    findings.refused(self.texts, sheet, part, &refusal);
                }
            }
            findings.remarks(self.texts, sheet, remarks);
        });
        findings.sort();
        self.sheet(sheet, &findings);
        self.sheets.append(rules).markup("</section>");
        self.list_sheet(sheet, refused);
        found
    }

    /// An input that could not be read, or not to its end.
    pub fn unread(&mut self, input: &OsStr, error: &dyn Display) {
        let what = format!("{}: {error}", input.to_string_lossy());
        self.unread.markup("<p class=unread>").text(fill(self.texts.unread_input, &[&what]));
    }

    /// Writes the rules of a part, after the rule with the number given, which becomes that of the last.
    fn rules(&mut self, html: &mut Html, sheet: &Sheet<'_>, part: Range<usize>, reading: &Reading<'_>, place: &mut Place) {
        let begins: Vec<usize> = reading.rules().map(|rule| rule.place).chain([part.end]).collect();
        for (i, rule) in reading.rules().enumerate() {
            place.rule += 1;
            let text = without_separator(&sheet.text()[begins[i]..begins[i + 1]]);
            let touches = days::touches(reading.records(), i, self.year);
            let same_as = touches.as_ref().ok().and_then(|touches| self.same_calendar(*place, rule.head.state, touches));
            rule::write(html, self.texts, self.year, &Shown { place: *place, text, rule, touches, same_as });
        }
    }

    /// The rule whose calendar stands for this one's too; None where it is to be shown.
    fn same_calendar(&mut self, place: Place, state: State, touches: &[Touch]) -> Option<Place> {
        let days = touches.iter().map(|touch| *touch as u8).collect();
        let first = *self.calendars.entry((state as u8, days)).or_insert(place);
        let same = (self.shown >= MANY_CALENDARS && first != place).then_some(first);
        self.shown += usize::from(same.is_none());
        same
    }

    /// Begins a sheet's section: where it was found, its text, and what is to be said of it.
    fn sheet(&mut self, sheet: &Sheet<'_>, findings: &Findings) {
        let (texts, number, html) = (self.texts, self.count, &mut self.sheets);
        html.markup("<section id=s").text(number).markup("><h2>").text(fill(texts.sheet, &[&number])).markup(" <small>");
        html.text(fill(texts.line, &[&source(texts, sheet.input), &sheet.line.number])).markup("</small></h2>");
        html.markup("<p class=sheet dir=ltr>");
        marked::write(html, sheet.text(), &findings.marks(), |html, finding| findings::refer(html, number, finding));
        if sheet.text().is_empty() {
            html.markup("<small>").text(texts.empty_sheet).markup("</small>");
        }
        if sheet.text().len() < sheet.line.bytes {
            html.markup("<small>").text(fill(texts.cut_sheet, &[&sheet.line.bytes])).markup("</small>");
        }
        findings.write(html, number);
    }

    fn list_sheet(&mut self, sheet: &Sheet<'_>, refused: usize) {
        let html = &mut self.list;
        let (text, is_whole) = beginning(sheet.text());
        html.markup("<li><a href=#s").text(self.count).markup(">").bytes(text);
        if text.is_empty() {
            html.text(self.texts.empty_sheet);
        }
        html.markup(if is_whole { "</a>" } else { "\u{2026}</a>" });
        if refused > 0 {
            self.refused.push(self.count);
            html.markup(" <b>").text(counted(&self.texts.refused_parts, refused, &[&refused])).markup("</b>");
        }
    }

    /// Writes the whole page.
    pub fn write(self, run: &Run, to: &mut Vec<u8>) {
        frame::write(self, run, to);
    }
}

/// The name of an input, to be shown.
fn source(texts: &Texts, input: &OsStr) -> String {
    match input {
        input if input == STANDARD_INPUT => texts.standard_input.to_string(),
        input if input == SHEET_ARGUMENT => texts.argument.to_string(),
        input => lorukinde::shown(input.as_bytes()),
    }
}

/// A rule's text ends before the separator after it, and the blanks around that.
fn without_separator(text: &[u8]) -> &[u8] {
    let end = text.iter().rposition(|byte| !b" ,|".contains(byte)).map_or(0, |last| last + 1);
    &text[..end]
}

/// So much of a sheet as a line of the list has room for, and whether that is all of it.
fn beginning(text: &[u8]) -> (&[u8], bool) {
    const MOST: usize = 120;
    let end = lorukinde::characters(text).nth(MOST).map_or(text.len(), |(place, _)| place);
    (&text[..end], end == text.len())
}
