//! Rules that meet on some days (docs/RULES.md, 13): the later one after `;` takes the earlier one's place there.
use super::{weekdays, Remark, Seen};
use crate::meaning::{Kind, Meaning, Separator, Span, State, Time, Weekday, MIDNIGHT};
use crate::place::shown;
use crate::words::listed;

pub(super) fn remarks(rules: &[Option<Seen<'_>>]) -> Vec<Remark> {
    let rules: Vec<&Seen<'_>> = rules.iter().flatten().collect();
    let pairs = (1..rules.len()).filter_map(|i| {
        let (before, later) = (&rules[..i], rules[i]);
        (later.head.separator == Separator::Normal && later.is_open()).then_some(())?;
        before.iter().rev().find_map(|earlier| times_lost(earlier, later).or_else(|| closing_lost(earlier, later)))
    });
    pairs.collect()
}

/// Weekdays that both have, if neither has other days.
fn shared(earlier: &Seen<'_>, later: &Seen<'_>) -> Vec<i32> {
    let both = weekdays(earlier);
    weekdays(later).into_iter().filter(|day| both.contains(day)).collect()
}

fn has_dates(rule: &Seen<'_>) -> bool {
    [Kind::Years, Kind::MonthDays, Kind::Weeks].iter().any(|kind| rule.has(*kind))
}

fn is_marked(rule: &Seen<'_>) -> bool {
    rule.items.iter().any(|item| matches!(item.meaning, Meaning::Weekdays(days) if !days.is_every_week() || days.day_offset != 0))
}

/// `Mo-Fr 08:00-12:00; We 14:00-18:00`: times that touch none of the earlier ones, and so may be meant besides them
fn times_lost(earlier: &Seen<'_>, later: &Seen<'_>) -> Option<Remark> {
    let days = shared(earlier, later);
    let is_plain =
        |rule: &Seen<'_>| rule.is_open() && rule.has(Kind::Times) && rule.has(Kind::Days) && !has_dates(rule) && !is_marked(rule);
    let is_besides = is_plain(earlier) && is_plain(later) && !days.is_empty();
    (is_besides && !spans(earlier).any(|one| spans(later).any(|other| overlap(one, other)))).then_some(())?;
    let names: Vec<String> = days.iter().filter_map(|day| Weekday::from_number(*day)).map(|day| day.to_string()).collect();
    let sentence = format!(
        "on {} this takes the place of `{}`, whose times do not remain; after `, ` instead of `;` both hold",
        listed(&names),
        shown(earlier.written)
    );
    Some(Remark::doubt(later.range.start, sentence, None))
}

fn spans<'a>(rule: &'a Seen<'_>) -> impl Iterator<Item = Span> + 'a {
    rule.items.iter().filter_map(|item| match item.meaning {
        Meaning::Span(span) => Some(span),
        _ => None,
    })
}

/// Whether two spans have a time in common, or may have.
fn overlap(one: Span, other: Span) -> bool {
    let clock = |span: Span| match (span.start, span.end) {
        (Time::Clock(start), Time::Clock(end)) => Some((start, if end <= start { end + MIDNIGHT } else { end })),
        _ => None,
    };
    match (clock(one), clock(other)) {
        (Some((from, to)), Some((start, end))) => from < end && start < to,
        _ => true,
    }
}

/// `2020 Dec 25-05 off; Mo-Fr 09:00-18:00`: the later rule opens what is closed
fn closing_lost(earlier: &Seen<'_>, later: &Seen<'_>) -> Option<Remark> {
    let is_closing = earlier.head.state == State::Closed && !earlier.has(Kind::Times);
    let is_special = has_dates(earlier) || earlier.items.iter().any(|item| matches!(item.meaning, Meaning::Holiday(_)));
    let is_for_all = !has_dates(later) && !later.items.iter().any(|item| matches!(item.meaning, Meaning::Holiday(_)));
    let weekdays_meet = !earlier.has(Kind::Days) || !has_dates(earlier) || !shared(earlier, later).is_empty();
    (is_closing && is_special && is_for_all && weekdays_meet).then_some(())?;
    let sentence = format!(
        "this takes the place of `{}` on the days that both have, so it is open there; if it is to be closed, write that rule last",
        shown(earlier.written)
    );
    Some(Remark::new(later.range.start, sentence, None))
}
