//! What an operator may have meant by a text that is refused.
//!
//! The text is taken word by word, as a person of his language takes it, and put into rules as the sheet rules write them. What
//! comes of it is proposed only if the proved reader accepts it, if each of its rules still says every word, number and sign that
//! it was made of ([`keeps`]), and if nothing in the sheet is then doubtful, as times that hold on every day are.
mod dates;
mod keeps;
mod letters;
mod lexicon;
mod numbers;
mod pieces;
mod rules;
mod times;
mod tokens;
mod weekdays;

use std::ops::Range;

use crate::hint::Hint;
use crate::manner::Manner;
use crate::meaning::Kind;
use crate::read_sheet_in;
use crate::record::Record;
use crate::remarks::is_doubtful;
use pieces::{Part, Piece, Tokens};
use tokens::{Token, Tongue, What};

/// A text that may have been meant, and why it is written so.
#[derive(Clone, Debug, PartialEq)]
struct Meant {
    text: String,
    because: Vec<String>,
}

/// What to write instead of a part that is refused, or, where the slip is in a separator, of the whole sheet.
pub(crate) fn hint(manner: Manner, sheet: &[u8], part: Range<usize>) -> Option<Hint> {
    let tongues = tongues(sheet).or_else(|| tongues(&sheet[part.clone()]))?;
    let ranges = if is_cut(sheet, &part) { vec![0..sheet.len()] } else { vec![part, 0..sheet.len()] };
    ranges.into_iter().find_map(|range| {
        let mut all: Vec<Meant> = Vec::new();
        for meant in tongues.iter().filter_map(|tongue| meant(manner, sheet, &range, *tongue)) {
            if all.iter().all(|known| known.text != meant.text) {
                all.push(meant);
            }
        }
        Hint::between(
            sheet,
            range,
            all.iter().map(|meant| meant.text.clone()).collect(),
            all.iter().flat_map(|meant| meant.because.clone()),
        )
    })
}

/// Whether a number goes on over one of a part's ends, as in `09;00-18;00`.
fn is_cut(sheet: &[u8], part: &Range<usize>) -> bool {
    let is_digit = |at: Option<usize>| at.and_then(|at| sheet.get(at)).map_or(false, u8::is_ascii_digit);
    let cut =
        |semicolon: Option<usize>| is_digit(semicolon.and_then(|at| at.checked_sub(1))) && is_digit(semicolon.map(|at| at + 1));
    cut(part.start.checked_sub(1)) || cut(Some(part.end))
}

/// The languages that know the most words of a text.
fn tongues(text: &[u8]) -> Option<Vec<Tongue>> {
    let all = (0..lexicon::LANGUAGES).flat_map(|language| [0, 1].map(|choice| Tongue { language, choice }));
    let counted: Vec<(usize, usize, Tongue)> = all
        .filter_map(|tongue| {
            let lexer = tokens::tokens(text, tongue)?;
            Some((lexer.unknown, usize::MAX - lexer.own, tongue))
        })
        .collect();
    let best = counted.iter().map(|(unknown, own, _)| (*unknown, *own)).min()?;
    Some(counted.into_iter().filter(|(unknown, own, _)| (*unknown, *own) == best).map(|(.., tongue)| tongue).collect())
}

/// What is meant by a range of a sheet, in a language.
fn meant(manner: Manner, sheet: &[u8], range: &Range<usize>, tongue: Tongue) -> Option<Meant> {
    let text = unquoted(&sheet[range.clone()]);
    let lexer = tokens::tokens(text, tongue)?;
    let all = Tokens { all: &lexer.tokens, text, manner };
    let pieces = pieces::pieces(all)?;
    let rules = rules::rules(&pieces)?;
    let text = rules.text(manner == Manner::House);
    let is_kept = rules.all().iter().all(|rule| {
        let written: Vec<&Token> = rule.tokens.iter().map(|at| &lexer.tokens[*at]).collect();
        keeps::keeps(&written, &rule.text())
    });
    let better = [&sheet[..range.start], text.as_bytes(), &sheet[range.end..]].concat();
    let is_sure = is_kept && accepts(manner, text.as_bytes()) && !is_doubtful(manner, &better);
    is_sure.then(|| {
        let of_rules = rules.because.into_iter().chain(has_bare_hours(&pieces, &lexer.tokens)).map(str::to_string);
        Meant { because: of_rules.chain(lexer.tokens.iter().filter_map(|token| token.because.clone())).collect(), text }
    })
}

/// Why a number alone is written as a time.
fn has_bare_hours(pieces: &[Piece], tokens: &[Token]) -> Option<&'static str> {
    let is_bare = |at: usize| matches!(tokens[at].what, What::Number(_, 1..=2));
    let has_bare =
        |piece: &Piece| matches!(piece.what, Part::Hours(_) | Part::Item(Kind::Times, _)) && piece.tokens.clone().any(is_bare);
    pieces.iter().any(has_bare).then_some(numbers::HOURS_AND_MINUTES)
}

/// A text without quotes round all of it.
fn unquoted(text: &[u8]) -> &[u8] {
    let quoted = || {
        let inside = std::str::from_utf8(text).ok()?.trim().strip_prefix(tokens::is_quote)?.strip_suffix(tokens::is_quote)?;
        (!inside.contains(tokens::is_quote)).then(|| inside.as_bytes())
    };
    quoted().unwrap_or(text)
}

pub(crate) fn accepts(manner: Manner, text: &[u8]) -> bool {
    let mut table = vec![Record::EMPTY; text.len()];
    read_sheet_in(manner, text, &mut table).is_ok()
}
