//! What stands in a text one after the other: items, states, notes, and the signs between them.
use std::ops::Range;

use super::lexicon::{ALWAYS, AND, BETWEEN, EXCEPT, FROM, MIDNIGHT, NOON, TO};
use super::tokens::{is_note, Token, What};
use super::{dates, times, weekdays};
use crate::manner::Manner;
use crate::meaning::Kind;
use crate::names::STATES;

/// A piece of a text, and the words, numbers and signs that it is made of.
#[derive(Clone, Debug)]
pub(super) struct Piece {
    pub what: Part,
    pub tokens: Range<usize>,
    /// Whether a blank stands before it.
    pub is_apart: bool,
}

#[derive(Clone, Debug, PartialEq)]
pub(super) enum Part {
    /// An item, or some of one kind, as the rules write them.
    Item(Kind, String),
    /// Times of which both ends are numbers alone: after a date they may be days.
    Hours(String),
    Always,
    State(&'static str),
    Note(String),
    /// A note without quotes.
    Words(String),
    /// A note with a colon before the days that it belongs to.
    Title(String),
    Except,
    /// A sign between two pieces; `,` also for a word that says the same.
    Join(char),
    /// A word that says `and`.
    And,
}

/// Some tokens, and how they are read.
#[derive(Clone, Copy)]
pub(super) struct Tokens<'a> {
    pub all: &'a [Token],
    pub text: &'a [u8],
    pub manner: Manner,
}

impl<'a> Tokens<'a> {
    pub fn what(&self, at: usize) -> Option<&'a What> {
        self.all.get(at).map(|token| &token.what)
    }

    pub fn name(&self, at: usize) -> Option<&'static str> {
        self.all.get(at).and_then(Token::name)
    }

    pub fn is_sign(&self, at: usize, sign: char) -> bool {
        self.all.get(at).map_or(false, |token| token.is_sign(sign))
    }

    pub fn is_dash(&self, at: usize) -> bool {
        self.is_sign(at, '-') || self.name(at) == Some(TO)
    }

    pub fn is_join(&self, at: usize) -> bool {
        self.is_sign(at, ',') || self.name(at) == Some(AND)
    }

    pub fn number(&self, at: usize) -> Option<(u32, usize)> {
        match self.what(at) {
            Some(What::Number(value, digits)) => Some((*value, *digits)),
            _ => None,
        }
    }
}

/// All pieces of a text; None if something is left over.
pub(super) fn pieces(tokens: Tokens<'_>) -> Option<Vec<Piece>> {
    let (mut found, mut at, mut has_days) = (Vec::new(), 0, false);
    while at < tokens.all.len() {
        let (what, end) = piece(tokens, at, has_days)?;
        match what {
            Part::Item(Kind::Days, _) => has_days = true,
            Part::Join(';' | '|') => has_days = false,
            _ => {}
        }
        found.push(Piece { what, tokens: at..end, is_apart: tokens.all[at].is_apart });
        at = end;
    }
    Some(found)
}

fn piece(tokens: Tokens<'_>, at: usize, has_days: bool) -> Option<(Part, usize)> {
    match tokens.what(at)? {
        What::Sign(sign @ (',' | ';' | '|' | ':' | '/' | '+')) => Some((Part::Join(*sign), at + 1)),
        What::Name(AND) => Some((Part::And, at + 1)),
        What::Name(EXCEPT) => Some((Part::Except, at + 1)),
        What::Name(ALWAYS) => Some((Part::Always, at + 1)),
        What::Name(name) if STATES.contains(name) => Some((Part::State(name), at + 1)),
        What::Note(note) if tokens.is_sign(at + 1, ':') => Some((Part::Title(note.clone()), at + 2)),
        What::Note(note) => Some((Part::Note(note.clone()), at + 1)),
        What::Unknown(_) => words(tokens, at),
        _ => item(tokens, at, has_days),
    }
}

fn item(tokens: Tokens<'_>, at: usize, has_days: bool) -> Option<(Part, usize)> {
    let of = |kind: Kind| move |(text, end): (String, usize)| (Part::Item(kind, text), end);
    let begin = if matches!(tokens.name(at), Some(FROM | BETWEEN)) { at + 1 } else { at };
    let days =
        || weekdays::weekdays(tokens, begin).map(of(Kind::Days)).filter(|(_, end)| begin == at || has_dash(tokens, begin..*end));
    let dates = || {
        dates::dates(tokens, begin, has_days)
            .map(of(Kind::MonthDays))
            .filter(|(_, end)| begin == at || has_dash(tokens, begin..*end))
    };
    let weeks = || dates::weeks(tokens, at).map(of(Kind::Weeks));
    let years = || dates::years(tokens, at).map(of(Kind::Years)).filter(|_| !has_days);
    let times = || {
        times::times(tokens, at, has_days).map(|(text, end)| match is_bare(tokens, at..end) {
            true => (Part::Hours(text), end),
            false => (Part::Item(Kind::Times, text), end),
        })
    };
    days().or_else(dates).or_else(weeks).or_else(years).or_else(times)
}

/// Whether nothing says that numbers are hours: the last of them is one alone.
fn is_bare(tokens: Tokens<'_>, range: Range<usize>) -> bool {
    let is_time = |at: &usize| {
        matches!(tokens.what(*at), Some(What::Clock(_) | What::WholeDay | What::Event(_))) || is_named_time(tokens.name(*at))
    };
    let last = range.rev().find(|at| is_time(at) || tokens.number(*at).is_some());
    last.map_or(false, |at| !is_time(&at))
}

fn is_named_time(name: Option<&str>) -> bool {
    matches!(name, Some("dawn" | "sunrise" | "sunset" | "dusk" | NOON | MIDNIGHT))
}

/// Whether something that begins with `from` says up to when.
fn has_dash(tokens: Tokens<'_>, range: Range<usize>) -> bool {
    range.into_iter().any(|at| tokens.is_dash(at))
}

/// Words that are not known: a note without quotes, up to the next sign.
fn words(tokens: Tokens<'_>, at: usize) -> Option<(Part, usize)> {
    let is_part = |token: &&Token| match &token.what {
        What::Unknown(_) => true,
        What::Name(name) => [TO, AND, FROM, BETWEEN].contains(name),
        _ => false,
    };
    let end = at + tokens.all[at..].iter().take_while(is_part).count();
    is_note(&tokens.all[at..end]).then_some(())?;
    // Words that say nothing of times belong to it too, as `on` of `on request`.
    let begin = if at == 0 { 0 } else { tokens.all[at - 1].range.end };
    let note = std::str::from_utf8(&tokens.text[begin..tokens.all[end - 1].range.end]).ok()?;
    let note = note.trim_start_matches(|letter: char| !letter.is_alphabetic()).to_string();
    let is_title = tokens.is_sign(end, ':');
    Some(if is_title { (Part::Title(note), end + 1) } else { (Part::Words(note), end) })
}
