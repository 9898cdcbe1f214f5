//! `,` and `;` where another sign or a blank may be meant: times for every day, days for all hours, a year alone.
use super::{Remark, Seen};
use crate::hint::Hint;
use crate::meaning::{Kind, Separator};
use crate::place::shown;

pub(super) fn remarks(sheet: &[u8], rules: &[Option<Seen<'_>>]) -> Vec<Remark> {
    let mut all = Vec::new();
    let mut listed = 0; // up to here rules are part of a list that is remarked on
    for (i, rule) in rules.iter().enumerate() {
        let before = i.checked_sub(1).and_then(|i| rules[i].as_ref());
        let later: Vec<&Seen<'_>> = rules[i + 1..].iter().map_while(Option::as_ref).collect();
        if let Some(rule) = rule.as_ref().filter(|_| i >= listed) {
            let list = list_after(rule, &later);
            listed = i + list.len();
            let found = year_alone(sheet, before, rule, later.first().copied())
                .or_else(|| times_alone(sheet, before?, rule))
                .or_else(|| days_alone(sheet, before, rule, &later, list));
            all.extend(found);
        }
    }
    all
}

/// The sign that stands before a rule.
fn sign(rule: &Seen<'_>) -> char {
    if rule.is_first {
        ';'
    } else {
        ','
    }
}

fn is_fallback(rule: &Seen<'_>) -> bool {
    rule.head.separator == Separator::Fallback
}

/// `Mo-Fr, 9:00-18:00`; `Mo-Fr 9:00-12:00; 14:00-18:00`
fn times_alone(sheet: &[u8], before: &Seen<'_>, rule: &Seen<'_>) -> Option<Remark> {
    let is_alone = rule.has(Kind::Times) && !rule.has_days() && !is_fallback(rule);
    (is_alone && before.has_days()).then_some(())?;
    let is_sure = before.is_open() && !before.has_note() && !before.says_open();
    let write = if before.has(Kind::Times) { "," } else { " " };
    let hint = is_sure.then(|| Hint::new(sheet, before.range.end..rule.range.start, write));
    let times = shown(rule.written);
    let sentence = format!("`{times}` holds on every day: after `{}` a rule begins, and this one has no days", sign(rule));
    Some(Remark::doubt(rule.range.start, sentence, hint))
}

fn is_alone(rule: &Seen<'_>) -> bool {
    rule.has_days() && !rule.has(Kind::Times) && rule.is_open() && !rule.says_open() && !rule.has_note()
}

/// The rules after one of days alone that may be one list with it: up to one that says when, or that it is closed.
fn list_after<'a, 'b>(rule: &Seen<'_>, later: &'a [&'b Seen<'b>]) -> &'a [&'b Seen<'b>] {
    let kind = |item: Option<&crate::meaning::Placed>| item.map(|item| item.meaning.kind());
    let same = |next: &&&Seen<'_>| {
        next.head.separator == Separator::Additional
            && kind(next.items.first()) == kind(rule.items.last())
            && kind(next.items.first()).is_some()
    };
    let count = later.iter().take_while(same).count();
    match later[..count].iter().position(|next| !is_alone(next)) {
        Some(last) if is_alone(rule) => &later[..=last],
        _ => &[],
    }
}

/// `Mo, We, Fr 07:00-09:00`; `Mo-Fr 09:00-18:00; Sa`
fn days_alone(
    sheet: &[u8],
    before: Option<&Seen<'_>>,
    rule: &Seen<'_>,
    later: &[&Seen<'_>],
    list: &[&Seen<'_>],
) -> Option<Remark> {
    let has_times = |other: &&Seen<'_>| other.has(Kind::Times) && other.is_open();
    let next = later.first().copied().filter(|next| !is_fallback(next));
    let is_beside = before.filter(has_times).is_some() || next.filter(has_times).is_some() || !list.is_empty();
    (is_alone(rule) && is_beside && !is_fallback(rule)).then_some(())?;
    let hint = list.last().map(|last| {
        let between: Vec<String> = list[..list.len() - 1].iter().map(|rule| format!("{},", shown(rule.written))).collect();
        Hint::new(sheet, rule.range.end..last.range.start, format!(",{}", between.concat()))
            .because("a list has commas without blanks")
    });
    let sentence = format!("`{}` is a rule of its own: open all day, since no times stand with it", shown(rule.written));
    Some(Remark::doubt(rule.range.start, sentence, hint))
}

/// `2020, Dec 25-05 off`, `Dec 25, 2020 off`
fn year_alone(sheet: &[u8], before: Option<&Seen<'_>>, rule: &Seen<'_>, after: Option<&Seen<'_>>) -> Option<Remark> {
    let is_year = |rule: &Seen<'_>| rule.items.len() == 1 && rule.has(Kind::Years) && rule.items[0].place == rule.range.start;
    let is_date = |rule: &Seen<'_>| rule.items.first().map_or(false, |item| item.meaning.kind() == Kind::MonthDays);
    let is_comma = |rule: &Seen<'_>| rule.head.separator == Separator::Additional;
    is_year(rule).then_some(())?;
    let year = &rule.written[..rule.written.len().min(4)];
    let sentence = format!("`{}` is a rule of its own, which holds all year", shown(rule.written));
    let with_date = |date: &Seen<'_>| format!("{} {}", shown(year), shown(date.written));
    let next = after.filter(|after| is_comma(after) && is_date(after) && rule.written.len() == year.len());
    let previous = before.filter(|before| is_comma(rule) && is_date(before) && before.items.len() == 1 && before.is_open());
    let hint = match (next, previous) {
        (Some(next), _) => Hint::new(sheet, rule.range.start..next.range.end, with_date(next)),
        (None, Some(date)) => {
            Hint::new(sheet, date.range.start..rule.range.end, with_date(date) + &shown(&rule.written[year.len()..]))
        }
        _ => return None,
    };
    Some(Remark::doubt(rule.range.start, sentence, Some(hint)))
}
