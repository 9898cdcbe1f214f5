//! A rule: its text, what it says in plain words, the days that its dates name, and its year.
use lorukinde::{Date, Dates, Day, Meaning, Rule};

use super::days::Touch;
use super::html::Html;
use super::stretches::sentence;
use super::texts::{fill, Texts};
use super::year::{self, Year};
use super::{calendar, reasons};

/// A rule's number, and that of its sheet.
#[derive(Clone, Copy, PartialEq, Eq)]
pub struct Place {
    pub sheet: usize,
    pub rule: usize,
}

pub struct Shown<'a> {
    pub place: Place,
    /// The rule as it stands in the sheet.
    pub text: &'a [u8],
    pub rule: Rule<'a>,
    /// For each day of the year, whether the rule touches it; or why that is not known.
    pub touches: Result<Vec<Touch>, String>,
    /// The rule of which the calendar is the same, where that need not be shown again.
    pub same_as: Option<Place>,
}

pub fn write(html: &mut Html, texts: &Texts, year: Year, shown: &Shown<'_>) {
    let Place { sheet, rule } = shown.place;
    html.markup("<article id=s").text(sheet).markup("r").text(rule).markup("><h3>").text(fill(texts.rule, &[&rule]));
    html.markup(" <code>").bytes(shown.text).markup("</code></h3>");
    html.markup("<p class=words>").text(shown.rule.said(texts.language));
    for item in shown.rule.items() {
        if let Meaning::Dates(dates) = item.meaning {
            ends(html, texts, &dates);
        }
    }
    match &shown.touches {
        Ok(touches) => days(html, texts, year, shown, touches),
        Err(why) => {
            html.markup("<p class=bad>").text(fill(texts.days_unknown, &[&year.0, why]));
        }
    }
    html.markup("</article>");
}

/// The first and the last day of a date item.
fn ends(html: &mut Html, texts: &Texts, dates: &Dates) {
    let is_yearly = dates.start.year.or(dates.end.year).is_none();
    let mut named = |before, what, date| {
        html.markup(before).text(what).markup(": <b>").text(end(texts, date, is_yearly)).markup("</b>");
    };
    if dates.start == dates.end {
        named("<p class=ends>", texts.only_day, &dates.start);
    } else {
        named("<p class=ends>", texts.first_day, &dates.start);
        named("<br>", texts.last_day, &dates.end);
    }
}

fn end(texts: &Texts, date: &Date, is_yearly: bool) -> String {
    /// A leap year: it has every day that there is in some year.
    const LONGEST: i32 = 2000;
    let (month, day) = match date.day {
        Day::Fixed { month, day } if date.day_offset == 0 && date.to_weekday.is_none() => (month.number() as usize, day),
        _ => return date.said(texts.language),
    };
    let on = year::Day { year: date.year.unwrap_or(LONGEST), month, day };
    let said = match date.year {
        Some(_) => texts.dated(on),
        None if is_yearly => fill(texts.every_year, &[&texts.day(month, day)]),
        None => texts.day(month, day),
    };
    match on.exists() {
        true => said,
        false => fill(texts.no_such_day, &[&said]),
    }
}

/// The rule's year: in words, and as a calendar.
fn days(html: &mut Html, texts: &Texts, year: Year, shown: &Shown<'_>, touches: &[Touch]) {
    in_words(html, texts, year, shown, touches);
    match shown.same_as {
        None => calendar::write(html, texts, year, shown.rule.head.state, touches),
        Some(Place { sheet, rule }) => {
            html.markup("<p><a href=#s").text(sheet).markup("r").text(rule).markup(">");
            html.text(fill(texts.same_calendar, &[&sheet, &rule])).markup("</a>");
        }
    }
}

/// On which days of the year the rule applies, and on which that is undecided, and why.
fn in_words(html: &mut Html, texts: &Texts, year: Year, shown: &Shown<'_>, touches: &[Touch]) {
    let days = |sentences, wanted| sentence(texts, year, sentences, |day| touches[day] == wanted);
    let applies = days((&texts.applies, texts.applies_always), Touch::Yes);
    let undecided = days((&texts.undecided, texts.undecided_always), Touch::Undecided);
    let never = || fill(texts.applies_never, &[&year.0]);
    if let Some(applies) = applies.or_else(|| undecided.is_none().then(never)) {
        html.markup("<p>").text(applies);
    }
    if let Some(undecided) = undecided {
        html.markup("<p>").text(undecided).markup("<ul>");
        for reason in reasons::of_rule(texts, &shown.rule) {
            html.markup("<li>").text(reason);
        }
        html.markup("</ul>");
    }
}
