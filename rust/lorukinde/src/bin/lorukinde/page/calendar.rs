//! A year's calendar: twelve tables, a month each, in which the days that a rule touches are marked.
use lorukinde::State;

use super::days::Touch;
use super::html::Html;
use super::texts::{fill, Texts};
use super::year::{Year, MONTHS};

/// Writes the calendar, to be opened on demand: a key, and the months. There is an answer for each day of the year.
pub fn write(html: &mut Html, texts: &Texts, year: Year, state: State, touches: &[Touch]) {
    html.calendar()
        .markup("<summary>")
        .text(fill(texts.calendar, &[&year.0]))
        .markup("</summary><div class=")
        .markup(class(state));
    html.markup(">");
    key(html, texts, state, touches.contains(&Touch::Undecided));
    html.markup("<div class=year>");
    let mut before = 0;
    for month in 1..=MONTHS {
        before += one_month(html, texts, (year, month), &touches[before..], before);
    }
    html.markup("</div></div></details>");
}

/// The class of a rule's calendar, which decides colour, sign and word of its days.
fn class(state: State) -> &'static str {
    match state {
        State::Open => "o",
        State::Closed => "c",
        State::Unknown => "k",
    }
}

fn key(html: &mut Html, texts: &Texts, state: State, some_undecided: bool) {
    html.markup("<ul class=key><li><b class=y>1</b> ").text(fill(texts.key_yes, &[&texts.state(state)]));
    html.markup("<li><b>1</b> ").text(texts.key_no);
    if some_undecided {
        html.markup("<li><b class=h>1</b> ").text(texts.undecided_day);
    }
    html.markup("</ul>");
}

/// Writes a month, before which the year has so many days, and answers how many days it has itself.
fn one_month(html: &mut Html, texts: &Texts, (year, month): (Year, usize), touches: &[Touch], before: usize) -> usize {
    html.markup("<table><caption>")
        .text(format_args!("{} {}", texts.months[month - 1], year.0))
        .markup("<tr><th title=")
        .text(texts.week);
    html.markup(">").text(texts.week_short);
    for (short, weekday) in texts.weekdays_short.iter().zip(texts.weekdays) {
        html.markup("<th title=").text(weekday).markup(">").text(short);
    }
    let days = year.days_of(month) as usize;
    for (day, touch) in touches[..days].iter().enumerate() {
        let column = year.column(before + day);
        if day == 0 || column == 0 {
            html.markup("<tr><th>").text(year.week(before + day));
        }
        if day == 0 && column > 0 {
            html.markup("<td colspan=").text(column).markup(">");
        }
        html.markup(match touch {
            Touch::No => "<td>",
            Touch::Yes => "<td class=y>",
            Touch::Undecided => "<td class=h>",
        });
        html.text(day + 1);
    }
    html.markup("</table>");
    days
}
