//! Numbers as operators write them: times (`9h30`, `9.30 Uhr`, `5pm`, `22:OO`), dates (`25.12.2020`, `25/12`), and others.
use super::letters::Letters;
use super::lexicon::{self, ALWAYS, TIME_UNITS};
use super::tokens::{Clock, Lexer, Token, What};

const YEAR_DIGITS: usize = 4;
const SHORT_DIGITS: usize = 2;
const MOST_DIGITS: usize = 6;
const HOUR: u32 = 60;
const NOON: u32 = 12;
const HOURS: u32 = 24;
const MONTHS: u32 = 12;
const DAYS: u32 = 31;
/// A year of two digits is one of this century.
const CENTURY: u32 = 2000;

pub(super) const HOURS_AND_MINUTES: &str = "a time has hours and minutes";
const YEAR_FIRST: &str = "a date is written year, month, day";

/// Takes the number at a place, with all that belongs to it.
pub(super) fn token(lexer: &mut Lexer<'_>, at: usize) -> Option<usize> {
    if let Some((length, meanings)) = lexicon::longest(&lexer.letters.all[at..], lexer.tongue.language) {
        return lexer.push(What::Name(meanings[0].key), at, at + length, None); // `7j/7`
    }
    if let Some((what, end, because)) = always(lexer, at).or_else(|| date(lexer, at)).or_else(|| clock(lexer, at)) {
        lexer.own += usize::from(has_own_unit(lexer, at, end));
        return lexer.push(what, at, end, because);
    }
    let (value, digits, end) = lexer.letters.number(at, MOST_DIGITS)?;
    let ordinal =
        ["st", "nd", "rd", "th", "er", "e"].iter().filter_map(|word| lexicon::begins_with(&lexer.letters.all[end..], word));
    let end = end + ordinal.max().unwrap_or(0);
    lexer.push(What::Number(value, digits), at, end, None)
}

/// Whether a word of the language itself ends a time, as `Uhr` does.
fn has_own_unit(lexer: &Lexer<'_>, at: usize, end: usize) -> bool {
    let letters = lexer.letters.all[at..end].iter().rev().take_while(|letter| letter.is_alphabetic()).count();
    let word = &lexer.letters.all[end - letters..end];
    lexicon::longest(word, lexer.tongue.language).map_or(false, |(_, some)| some[0].key == lexicon::NOTHING && some[0].is_own)
}

type Found = (What, usize, Option<String>);

/// `24/7`, `24 / 7`, `24-7`, `24 h`, `24/24`
fn always(lexer: &Lexer<'_>, at: usize) -> Option<Found> {
    let letters = &lexer.letters;
    let (hours, _, after) = letters.number(at, SHORT_DIGITS)?;
    let sign = letters.after_blanks(after);
    let number = letters.number(letters.after_blanks(sign + 1), SHORT_DIGITS);
    let is_alone = lexer.tokens.last().map_or(true, |token| matches!(token.what, What::Sign(';' | ',' | '|')));
    match (letters.get(sign), number) {
        _ if hours != HOURS => None,
        (Some('/' | 'x'), Some((7, 1, end))) => Some((What::Name(ALWAYS), end, None)),
        (Some('-'), Some((7, 1, end))) if is_alone => Some((What::Name(ALWAYS), end, None)),
        (Some('/'), Some((24, 2, end))) => Some((What::WholeDay, end, None)),
        _ => whole_day(lexer, after),
    }
}

/// The hours of `24h`, `24 Stunden`: not as the end of a span, nor as its start.
fn whole_day(lexer: &Lexer<'_>, after: usize) -> Option<Found> {
    let letters = &lexer.letters;
    let word = letters.after_blanks(after);
    let units = ["h", "hours", "hrs", "stunden", "std", "heures", "uur", "u", "h/24", "hours a day"];
    let length = units.iter().filter_map(|unit| lexicon::begins_with(letters.all.get(word..)?, unit)).max()?;
    letters.get(word + length).filter(char::is_ascii_digit).map_or(Some(()), |_| None)?; // `24h00`
    let next = letters.after_blanks(word + length);
    let follows = lexicon::longest(letters.all.get(next..).unwrap_or_default(), lexer.tongue.language);
    let is_start = letters.get(next) == Some('-') || follows.map_or(false, |(_, some)| some[0].key == lexicon::TO);
    let is_end = lexer.tokens.last().map_or(false, is_dash);
    (!is_start && !is_end).then_some((What::WholeDay, word + length, None))
}

pub(super) fn is_dash(token: &Token) -> bool {
    token.is_sign('-') || token.name() == Some(lexicon::TO)
}

/// A date with all its numbers.
fn date(lexer: &Lexer<'_>, at: usize) -> Option<Found> {
    let (year, month, day, end) = year_first(&lexer.letters, at).or_else(|| dotted(lexer, at)).or_else(|| slashed(lexer, at))?;
    let is_date = (1..=MONTHS).contains(&month) && (1..=DAYS).contains(&day);
    is_date.then(|| (What::Date(year, month as usize, day), end, Some(YEAR_FIRST.into())))
}

type Numbers = (Option<u32>, u32, u32, usize);

/// `2020-12-25`, `2020/12/25`, `2020.12.25`
fn year_first(letters: &Letters<'_>, at: usize) -> Option<Numbers> {
    let (year, digits, after) = letters.number(at, YEAR_DIGITS)?;
    let sign = letters.get(after).filter(|sign| "-/.".contains(*sign))?;
    let (month, _, after) = letters.number(after + 1, SHORT_DIGITS)?;
    (letters.get(after) == Some(sign) && digits == YEAR_DIGITS).then_some(())?;
    let (day, _, end) = letters.number(after + 1, SHORT_DIGITS)?;
    Some((Some(year), month, day, end))
}

/// `25.12.2020`, `25.12.20`, `25.12.`; and `24.12`, where it can be no time
fn dotted(lexer: &Lexer<'_>, at: usize) -> Option<Numbers> {
    let letters = &lexer.letters;
    let (day, _, after) = letters.number(at, SHORT_DIGITS)?;
    (letters.get(after) == Some('.')).then_some(())?;
    let (month, digits, after) = letters.number(letters.after_blanks(after + 1), SHORT_DIGITS)?;
    if letters.get(after) == Some('.') {
        let (year, end) = year_after(letters, after + 1);
        return Some((year, month, day, end));
    }
    let may_be_time = digits == SHORT_DIGITS && day * HOUR + month <= HOURS * HOUR;
    (!may_be_time && unit(letters, after).is_none()).then_some((None, month, day, after))
}

/// The year after a date's last dot, if it has one: four digits, or two of this century.
fn year_after(letters: &Letters<'_>, at: usize) -> (Option<u32>, usize) {
    let is_more = |end: usize| letters.get(end).map_or(false, |next| ":.hu".contains(next) || next.is_ascii_digit());
    match (letters.number(letters.after_blanks(at), YEAR_DIGITS), letters.number(at, SHORT_DIGITS)) {
        (Some((year, YEAR_DIGITS, end)), _) if letters.get(end) != Some(':') => (Some(year), end),
        (_, Some((year, SHORT_DIGITS, end))) if !is_more(end) => (Some(CENTURY + year), end),
        _ => (None, at),
    }
}

/// `25/12/2020`, `25-12-2020`, `12/25/2020`, `25/12`, `31-12`: sure only where one of the two can be no month, and no hour
fn slashed(lexer: &Lexer<'_>, at: usize) -> Option<Numbers> {
    let letters = &lexer.letters;
    let (one, _, after) = letters.number(at, SHORT_DIGITS)?;
    let sign = letters.get(after).filter(|sign| "/-".contains(*sign))?;
    let (two, digits, after) = letters.number(after + 1, SHORT_DIGITS)?;
    let year = letters.number(after + 1, YEAR_DIGITS).filter(|(_, digits, _)| letters.get(after) == Some(sign) && *digits != 1);
    let is_day_first = one > HOURS && digits == SHORT_DIGITS && lexer.tokens.is_empty(); // `10-25` may be days, `31-12` is no hours
    let (year, end) = match year {
        Some((year, YEAR_DIGITS, end)) => (Some(year), end),
        Some((year, SHORT_DIGITS, end)) => (Some(CENTURY + year), end),
        None if letters.get(after) != Some(sign) && (sign == '/' || is_day_first) => (None, after),
        _ => return None,
    };
    match (one <= MONTHS, two <= MONTHS) {
        (false, true) => Some((year, two, one, end)),
        (true, false) => Some((year, one, two, end)),
        _ => None,
    }
}

/// A time, if its shape or its unit says that it is one.
fn clock(lexer: &Lexer<'_>, at: usize) -> Option<Found> {
    let letters = &lexer.letters;
    let (hour, minute, after, odd) = hours_and_minutes(lexer, at)?;
    let written_after = unit(letters, after);
    let is_plain = minute.is_some() && odd.is_none() && written_after.is_none();
    minute.or_else(|| written_after.map(|_| 0))?;
    let (half, end) = written_after.map_or((None, after), |(half, end)| (half, end));
    let hour_of_day = match half {
        Some(_) if hour == 0 || hour > NOON => return None,
        Some(more) => hour % NOON + more,
        None => hour,
    };
    let because = match half {
        Some(_) => Some("the clock goes from 00:00 to 24:00".into()),
        None if minute.is_none() => Some(HOURS_AND_MINUTES.into()),
        None => odd.or_else(|| written_after.map(|_| "no word stands after a time".into())),
    };
    let formal = if is_plain { letters.written(at, end).map(str::to_string) } else { None };
    let clock = Clock { minutes: hour_of_day * HOUR + minute.unwrap_or(0), has_half: half.is_some(), formal };
    (minute.unwrap_or(0) < HOUR).then_some((What::Clock(clock), end, because))
}

type HoursAndMinutes = (u32, Option<u32>, usize, Option<String>);

/// `9`, `9:30`, `9.30`, `9h30`, `9:30:00`, `22:OO`, `0930h`, and what is unusual about them.
fn hours_and_minutes(lexer: &Lexer<'_>, at: usize) -> Option<HoursAndMinutes> {
    let letters = &lexer.letters;
    if is_clock_with_letters(letters, at) {
        let (hour, after) = digits_with_letters(letters, at)?;
        let (minute, end) = digits_with_letters(letters, after + 1)?;
        return Some((hour, Some(minute), end, Some("the letter O stands for a zero".into())));
    }
    let (first, digits, after) = letters.number(at, YEAR_DIGITS)?;
    if digits > SHORT_DIGITS {
        let is_clock = digits == YEAR_DIGITS && unit(letters, after).is_some();
        return is_clock.then(|| (first / 100, Some(first % 100), after, Some("`:` stands between hours and minutes".into())));
    }
    if let Some((minute, end)) = spaced_minutes(letters, after) {
        return Some((first, Some(minute), end, Some("`:` stands between hours and minutes".into())));
    }
    let sign = letters.get(after).unwrap_or(' ');
    match letters.number(after + 1, SHORT_DIGITS) {
        Some((minute, SHORT_DIGITS, end)) if ":.hu".contains(sign) => {
            let seconds = letters.number(end + 1, SHORT_DIGITS).filter(|_| letters.get(end) == Some(':'));
            match (sign, seconds) {
                (':', Some((0, SHORT_DIGITS, end))) => Some((first, Some(minute), end, Some("a time has no seconds".into()))),
                (':', None) => Some((first, Some(minute), end, None)),
                (_, Some(_)) => None,
                ('.', None) if minute <= MONTHS && minute > 0 && may_be_date(lexer, end) => None,
                _ => Some((first, Some(minute), end, Some(format!("`{sign}` is written `:`")))),
            }
        }
        _ => Some((first, None, after, None)),
    }
}

/// `9 h 30`, and `09;00` in `09;00-18;00`
fn spaced_minutes(letters: &Letters<'_>, after: usize) -> Option<(u32, usize)> {
    let sign = letters.after_blanks(after);
    let (minute, digits, end) = letters.number(letters.after_blanks(sign + 1), SHORT_DIGITS)?;
    let is_hours = letters.get(sign) == Some('h') && sign > after && unit(letters, end).is_none();
    (is_hours && digits == SHORT_DIGITS).then_some((minute, end))
}

/// Whether `10.12` may be a day and a month: no weekday stands before it in its rule, nor a word for hours after it.
fn may_be_date(lexer: &Lexer<'_>, end: usize) -> bool {
    let rule = lexer.tokens.rsplit(|token| matches!(token.what, What::Sign(';' | '|'))).next().unwrap_or_default();
    let has_days = rule.iter().any(|token| matches!(token.what, What::Name(_) | What::Clock(_)) && !is_dash(token));
    !has_days && unit(&lexer.letters, end).is_none()
}

/// The word after a time, with a blank before it or without: how many hours it adds, and where it ends.
fn unit(letters: &Letters<'_>, at: usize) -> Option<(Option<u32>, usize)> {
    let word = letters.after_blanks(at);
    let rest = letters.all.get(word..)?;
    TIME_UNITS.iter().find_map(|(unit, half)| Some((*half, word + lexicon::begins_with(rest, unit)?)))
}

/// `22:OO`
pub(super) fn is_clock_with_letters(letters: &Letters<'_>, at: usize) -> bool {
    let both = || {
        let (_, after) = digits_with_letters(letters, at)?;
        letters.get(after).filter(|sign| ":.".contains(*sign))?;
        let (_, end) = digits_with_letters(letters, after + 1)?;
        let all = &letters.all[at..end];
        let is_short = after - at <= SHORT_DIGITS && end - after == 1 + SHORT_DIGITS;
        Some(is_short && all.contains(&'o') && all.iter().any(char::is_ascii_digit))
    };
    both().unwrap_or(false)
}

fn digits_with_letters(letters: &Letters<'_>, at: usize) -> Option<(u32, usize)> {
    let digits = letters.all.get(at..)?.iter().take_while(|letter| letter.is_ascii_digit() || **letter == 'o');
    let digits: String = digits.map(|letter| if *letter == 'o' { '0' } else { *letter }).collect();
    Some((digits.parse().ok()?, at + digits.len()))
}
