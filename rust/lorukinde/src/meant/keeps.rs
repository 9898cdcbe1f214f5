//! Whether a rule that is proposed still says every word, number and sign of those that the operator wrote, and nothing else.
use super::lexicon::{ALWAYS, EXCEPT, MIDNIGHT, NOON, TO};
use super::tokens::{tokens, Token, Tongue, What};
use crate::names::{MONTHS, STATES, WEEKDAYS};

const DAY: u32 = 24 * 60;
const HALF_DAY: u32 = DAY / 2;

#[derive(Clone, Copy, Debug, PartialEq)]
enum Number {
    /// A number that may be a day, a year, a week or an hour, and how many digits it has.
    Plain(u32, usize),
    Minutes(u32),
}

/// What some words, numbers and signs say.
#[derive(Clone, Debug, Default, PartialEq)]
struct Said {
    /// Weekdays and holidays, events, marks and offsets, states, in their order.
    names: [Vec<String>; 4],
    months: Vec<usize>,
    numbers: Vec<Number>,
    /// The letters of notes.
    letters: String,
    dashes: usize,
    has_half: bool,
}

/// Whether a rule says what the words, numbers and signs say that it is made of.
pub(super) fn keeps(written: &[&Token], rule: &str) -> bool {
    let proposed = tokens(rule.as_bytes(), Tongue { language: 0, choice: 0 });
    let proposed = match &proposed {
        Some(lexer) => said(&lexer.tokens.iter().collect::<Vec<_>>()),
        None => return false,
    };
    let written = said(written);
    written.names == proposed.names
        && written.dashes == proposed.dashes
        && is_within(&written.letters, &proposed.letters)
        && same_months(&written.months, &proposed.months)
        && same_numbers(&written, &proposed)
}

fn said(tokens: &[&Token]) -> Said {
    let mut said = Said::default();
    tokens.iter().for_each(|token| say(&mut said, &token.what));
    said
}

fn say(said: &mut Said, what: &What) {
    match what {
        What::Name(name) => say_name(said, name),
        What::Number(value, digits) => said.numbers.push(Number::Plain(*value, *digits)),
        What::Clock(clock) => {
            said.numbers.push(Number::Minutes(clock.minutes));
            said.has_half |= clock.has_half;
        }
        What::Date(year, month, day) => {
            said.numbers.extend(year.map(|year| Number::Plain(year, 4)));
            said.months.push(*month);
            said.numbers.push(Number::Plain(*day, 2));
        }
        What::WholeDay => say_name(said, ALWAYS),
        What::Marks(marks) => said.names[2].push(marks.clone()),
        What::Offset(offset) => said.names[2].push(offset.clone()),
        What::Event(event) => said.names[1].push(event.clone()),
        What::Note(text) | What::Unknown(text) => said.letters.extend(text.chars().filter(|letter| letter.is_alphabetic())),
        What::Sign('-') => said.dashes += 1,
        What::Sign(_) => {}
    }
}

fn say_name(said: &mut Said, name: &str) {
    let month = |name: &str| MONTHS.iter().position(|month| *month == name).map(|i| i + 1);
    match name {
        TO => said.dashes += 1,
        NOON => said.numbers.push(Number::Minutes(HALF_DAY)),
        MIDNIGHT => said.numbers.push(Number::Minutes(DAY)),
        ALWAYS => {
            said.numbers.extend([Number::Minutes(0), Number::Minutes(DAY)]);
            said.dashes += 1;
        }
        EXCEPT | "closed" | "off" => said.names[3].push("off".into()),
        _ if STATES.contains(&name) => said.names[3].push(name.into()),
        "dawn" | "sunrise" | "sunset" | "dusk" => said.names[1].push(name.into()),
        "PH" | "SH" => said.names[0].push(name.into()),
        _ if WEEKDAYS.contains(&name) => said.names[0].push(name.into()),
        _ => match name.split_once(['-', ' ']) {
            Some((first, last)) if WEEKDAYS.contains(&first) => {
                said.names[0].extend([first.to_string(), last.to_string()]);
                said.dashes += 1;
            }
            Some(("easter", offset)) => said.names[2].extend(["easter".to_string(), format!(" {offset}")]),
            Some((first, day)) => {
                said.months.extend(month(first));
                said.numbers.extend(day.parse().ok().map(|day| Number::Plain(day, 2)));
            }
            None if name == "easter" || name == "week" => said.names[2].push(name.into()),
            None => said.months.extend(month(name)),
        },
    }
}

/// Whether all letters stand in another text, in their order.
fn is_within(letters: &str, text: &str) -> bool {
    let mut rest = text.chars();
    letters.chars().all(|letter| rest.any(|other| other == letter)) && (letters.is_empty() == text.is_empty())
}

/// The same months; one may be said again for each of its days.
fn same_months(written: &[usize], proposed: &[usize]) -> bool {
    written.iter().all(|month| proposed.contains(month)) && proposed.iter().all(|month| written.contains(month))
}

/// Every number is there, times in their order; years may be said again for each date.
fn same_numbers(written: &Said, proposed: &Said) -> bool {
    let mut left: Vec<Option<Number>> = written.numbers.iter().copied().map(Some).collect();
    let mut from = 0;
    for number in proposed.numbers.iter().filter(|number| matches!(number, Number::Minutes(_))) {
        let found = (from..left.len()).find(|i| left[*i].map_or(false, |known| same(known, *number, written.has_half)));
        match found {
            Some(i) => {
                left[i] = None;
                from = i + 1;
            }
            None => return false,
        }
    }
    for number in proposed.numbers.iter().filter(|number| matches!(number, Number::Plain(..))) {
        let is_same = |known: &Option<Number>| known.map_or(false, |known| same(known, *number, false));
        match left.iter().position(is_same) {
            Some(i) => left[i] = None,
            None if written.numbers.iter().any(|known| same(*known, *number, false)) => {}
            None => return false,
        }
    }
    let is_said =
        |known: Number| proposed.numbers.iter().any(|number| matches!(number, Number::Plain(..)) && same(known, *number, false));
    left.iter().flatten().all(|known| is_said(*known))
}

fn same(written: Number, proposed: Number, has_half: bool) -> bool {
    match (written, proposed) {
        (Number::Plain(one, _), Number::Plain(other, _)) => one == other,
        (Number::Minutes(one), Number::Minutes(other)) => {
            one % DAY == other % DAY || (has_half && one % HALF_DAY == other % HALF_DAY)
        }
        (Number::Plain(number, digits), Number::Minutes(minutes)) => {
            let hour = if digits == 4 { number / 100 * 60 + number % 100 } else { number * 60 };
            hour == minutes || number == minutes || (has_half && hour % HALF_DAY == minutes % HALF_DAY)
        }
        (Number::Minutes(minutes), Number::Plain(number, _)) => minutes == number,
    }
}
