//! What stands around the sheets: the page's head with its style, what is said of all sheets, and the list of them.
use super::html::Html;
use super::texts::{counted, fill, Texts};
use super::Page;
use crate::arguments::Run;

const STYLE: &str = include_str!("style.css");
/// A page of one sheet shows its calendars at once if there are no more than these.
const FEW_CALENDARS: usize = 6;
/// A list of no more sheets than these is shown at once.
const SHORT_LIST: usize = 40;

pub fn write(page: Page, run: &Run, to: &mut Vec<u8>) {
    let texts = page.texts;
    let (is_alone, calendars) = (page.count == 1, page.shown);
    let mut html = Html::default();
    head(&mut html, texts, page.year.0);
    html.markup("<header><h1>").text(fill(texts.title, &[&page.year.0])).markup("</h1><p>");
    about(&mut html, &page, run);
    html.append(page.unread);
    if !is_alone {
        list(&mut html, texts, page.count, &page.refused, page.list);
    }
    html.markup("</header><main>").append(page.sheets).markup("</main></html>\n");
    html.finish(is_alone && calendars <= FEW_CALENDARS, to);
}

/// The page needs nothing from elsewhere, and says so, so that a browser would refuse to fetch or to run anything.
fn head(html: &mut Html, texts: &Texts, year: i32) {
    html.markup("<!DOCTYPE html><html lang=").text(texts.code).markup("><meta charset=utf-8>");
    html.markup("<meta http-equiv=Content-Security-Policy content=\"default-src 'none'; style-src 'unsafe-inline'\">");
    html.markup(
        "<meta name=viewport content=\"width=device-width,initial-scale=1\"><meta name=color-scheme content=\"light dark\">",
    );
    html.markup("<title>").text(fill(texts.title, &[&year])).markup("</title><style>").markup(STYLE);
    words_of_signs(html, texts);
    html.markup("</style>");
}

/// What a screen reader says for the sign of a day.
fn words_of_signs(html: &mut Html, texts: &Texts) {
    let [open, closed, unknown] = texts.states;
    let rules =
        [(".o{--word:\"", open), (".c{--word:\"", closed), (".k{--word:\"", unknown), (".h{--word:\"", texts.undecided_day)];
    for (begin, word) in rules {
        html.markup(begin).markup(word).markup("\"}");
    }
}

fn about(html: &mut Html, page: &Page, run: &Run) {
    let texts = page.texts;
    match page.count {
        0 => html.text(texts.no_sheet),
        count => html.text(counted(&texts.sheets, count, &[&count])),
    };
    html.markup(" ").text(texts.read_by(run.manner)).markup(" ");
    match page.refused.len() {
        0 if page.count > 0 => html.text(texts.all_read),
        0 => html,
        count => html.markup("<b>").text(counted(&texts.some_refused, count, &[&count])).markup("</b>"),
    };
    html.markup("<p class=about>").text(texts.each_alone).markup(" ").sentence(texts.how_rules_meet);
}

fn list(html: &mut Html, texts: &Texts, count: usize, refused: &[usize], all: Html) {
    if !refused.is_empty() {
        html.markup("<nav aria-labelledby=r><p id=r>").text(texts.list_of_refused).markup(":<ul class=numbers>");
        for number in refused {
            html.markup("<li><a href=#s").text(number).markup(">").text(number).markup("</a> ");
        }
        html.markup("</ul></nav>");
    }
    html.markup("<nav aria-labelledby=l><details").markup(if count <= SHORT_LIST { " open" } else { "" });
    html.markup("><summary id=l>").text(texts.list).markup("</summary><ol>").append(all).markup("</ol></details></nav>");
}
