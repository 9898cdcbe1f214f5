//! Days in words: as stretches of days that follow each other.
use super::texts::{counted, fill, Texts};
use super::year::{Day, Year};

/// More stretches than these are not named one by one.
const MOST_NAMED: usize = 12;

/// The first and the last day of each stretch of days that are wanted.
fn stretches(year: Year, is_wanted: impl Fn(usize) -> bool) -> Vec<(Day, Day)> {
    let (mut all, mut open): (Vec<(Day, Day)>, bool) = (Vec::new(), false);
    for (i, day) in year.each_day().enumerate() {
        let wanted = is_wanted(i);
        match all.last_mut() {
            Some((_, last)) if open && wanted => *last = day,
            _ if wanted => all.push((day, day)),
            _ => {}
        }
        open = wanted;
    }
    all
}

fn named(texts: &Texts, all: &[(Day, Day)]) -> String {
    let said = |(first, last): &(Day, Day)| texts.stretch(*first, *last);
    match all {
        [first, .., last] if all.len() > MOST_NAMED => fill(texts.many_stretches, &[&all.len(), &said(first), &said(last)]),
        _ => all.iter().map(said).collect::<Vec<_>>().join(", "),
    }
}

/// How many days of the year are wanted and which, by a sentence for some and one for all; None where none is.
pub fn sentence(
    texts: &Texts,
    year: Year,
    (some, every): (&[&'static str; 2], &str),
    is_wanted: impl Fn(usize) -> bool,
) -> Option<String> {
    match (0..year.days()).filter(|day| is_wanted(*day)).count() {
        0 => None,
        count if count == year.days() => Some(fill(every, &[&year.0])),
        count => Some(counted(some, count, &[&count, &year.0, &named(texts, &stretches(year, is_wanted))])),
    }
}

#[cfg(test)]
mod tests {
    use super::super::texts::ENGLISH;
    use super::*;

    fn said(is_wanted: impl Fn(usize) -> bool) -> Option<String> {
        sentence(&ENGLISH, Year(2021), (&ENGLISH.applies, ENGLISH.applies_always), is_wanted)
    }

    #[test]
    fn sentences() {
        assert_eq!(said(|_| false), None);
        assert_eq!(said(|_| true).unwrap(), "Applies on every day of 2021.");
        assert_eq!(said(|day| day == 364).unwrap(), "Applies on 1 day of 2021: 31 December.");
        assert_eq!(said(|day| day < 5 || day >= 360).unwrap(), "Applies on 10 days of 2021: 1 to 5 January, 27 to 31 December.");
        let odd = said(|day| day % 2 == 0).unwrap();
        assert_eq!(odd, "Applies on 183 days of 2021: 183 stretches, the first 1 January, the last 31 December.");
    }
}
