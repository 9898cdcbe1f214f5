//! The sentences of a language. In each, `{0}`, `{1}` and so on stand for what is filled in.

/// A language in which rules are said.
#[derive(Clone, Copy, Debug, Default, PartialEq, Eq, Hash)]
pub enum Language {
    #[default]
    English,
    German,
    French,
    Dutch,
}

impl Language {
    /// The language with that code: `en`, `de`, `fr`, `nl`.
    pub fn from_code(code: &str) -> Option<Language> {
        match code {
            "en" => Some(Language::English),
            "de" => Some(Language::German),
            "fr" => Some(Language::French),
            "nl" => Some(Language::Dutch),
            _ => None,
        }
    }

    pub(super) fn sentences(self) -> &'static Sentences {
        match self {
            Language::English => &super::english::SENTENCES,
            Language::German => &super::german::SENTENCES,
            Language::French => &super::french::SENTENCES,
            Language::Dutch => &super::dutch::SENTENCES,
        }
    }
}

pub(super) struct Sentences {
    pub weekdays: [&'static str; 7],
    pub months: [&'static str; 12],
    /// Dawn, sunrise, sunset, dusk.
    pub events: [&'static str; 4],
    /// Open, closed, unknown.
    pub states: [&'static str; 3],
    /// Before the state of a rule after `, `, and after `||`.
    pub also: &'static str,
    pub otherwise: &'static str,
    pub always: &'static str,
    pub every_day: &'static str,
    pub all_day: &'static str,
    /// The last two of a list.
    pub and: &'static str,
    /// From one day to another, both among them; from a time to another.
    pub to: &'static str,
    pub until: &'static str,
    pub from_on: &'static str,
    /// A day and a month; the first of a month.
    pub date: &'static str,
    pub first_of_month: &'static str,
    pub in_year: &'static str,
    pub months_of_year: &'static str,
    pub every_year: &'static str,
    pub easter: &'static str,
    /// The nth, a weekday, a month.
    pub nth_weekday: &'static str,
    /// The weekday on or after, on or before a day.
    pub then_next: &'static str,
    pub then_previous: &'static str,
    pub if_weekday: &'static str,
    /// Which of a month, and the weekdays.
    pub of_the_month: &'static str,
    /// The first, the second, the third, others, the last, others from the end.
    pub first: &'static str,
    pub second: &'static str,
    pub third: &'static str,
    pub nth: &'static str,
    pub last: &'static str,
    pub nth_last: &'static str,
    pub public_holidays: &'static str,
    pub school_holidays: &'static str,
    /// A day, days, a minute, minutes.
    pub day: &'static str,
    pub days: &'static str,
    pub minute: &'static str,
    pub minutes: &'static str,
    /// How long, and what.
    pub after: &'static str,
    pub before: &'static str,
    pub week: &'static str,
    pub weeks: &'static str,
    /// The nth, from, to.
    pub every_nth_week: &'static str,
    pub every_nth_year: &'static str,
    pub next_day: &'static str,
    pub or_later: &'static str,
    pub open_end: &'static str,
    pub at: &'static str,
    pub every: &'static str,
    pub note: &'static str,
    pub note_in_place_of: &'static str,
}

/// A sentence with its blanks filled in.
pub(super) fn fill(sentence: &str, with: &[&str]) -> String {
    let mut text = String::with_capacity(sentence.len());
    let mut pieces = sentence.split('{');
    text.push_str(pieces.next().unwrap_or_default());
    for piece in pieces {
        let (number, rest) = piece.split_once('}').unwrap_or((piece, ""));
        text.push_str(number.parse().ok().and_then(|i: usize| with.get(i).copied()).unwrap_or_default());
        text.push_str(rest);
    }
    text
}
