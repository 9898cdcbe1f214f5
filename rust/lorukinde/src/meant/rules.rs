//! Pieces put into rules, each in the order of the sheet rules.
use super::pieces::{Part, Piece};
use crate::meaning::Kind;

/// A rule as it may have been meant, and the words, numbers and signs that it is made of.
#[derive(Clone, Debug, Default)]
pub(super) struct Rule {
    separator: &'static str,
    title: Option<String>,
    items: Vec<(Kind, String)>,
    is_always: bool,
    state: Option<&'static str>,
    note: Option<String>,
    pub tokens: Vec<usize>,
    /// The state was written before the days, or the times were.
    is_turned: bool,
    has_exceptions: bool,
}

const SEMICOLON: &str = "; ";
const COMMA: &str = ", ";
const FALLBACK: &str = " || ";

fn rank(kind: Kind) -> usize {
    [Kind::Years, Kind::MonthDays, Kind::Weeks, Kind::Days, Kind::Times].iter().position(|known| *known == kind).unwrap_or(0)
}

impl Rule {
    fn is_empty(&self) -> bool {
        self.items.is_empty() && self.state.is_none() && self.note.is_none() && !self.is_always && self.title.is_none()
    }

    fn has(&self, kind: Kind) -> bool {
        self.items.iter().any(|(known, _)| *known == kind)
    }

    /// Whether it says on which days.
    fn has_days(&self) -> bool {
        self.items.iter().any(|(kind, _)| *kind != Kind::Times)
    }

    fn is_complete(&self) -> bool {
        self.has(Kind::Times) || self.state.is_some() || self.note.is_some() || self.is_always
    }

    /// As the sheet rules write it, without its separator.
    pub fn text(&self) -> String {
        let mut words: Vec<String> = self.title.iter().map(|title| format!("\"{title}\":")).collect();
        let is_whole_day = matches!(&self.items[..], [(Kind::Times, hours)] if hours == "00:00-24:00");
        if self.is_always || (is_whole_day && self.title.is_none()) {
            words.push("24/7".into());
        } else {
            let mut items = self.items.clone();
            items.sort_by_key(|(kind, _)| rank(*kind));
            let mut before = None;
            for (kind, text) in items {
                match words.last_mut().filter(|_| before == Some(kind)) {
                    Some(list) => *list = format!("{list},{text}"),
                    None => words.push(text),
                }
                before = Some(kind);
            }
        }
        words.extend(self.state.map(str::to_string));
        words.extend(self.note.iter().map(|note| format!("\"{note}\"")));
        words.join(" ")
    }
}

/// The rules of some pieces, and why they are written so.
#[derive(Default)]
pub(super) struct Rules {
    done: Vec<Rule>,
    now: Rule,
    exceptions: Vec<Rule>,
    /// Whether what was put last belongs to an exception.
    is_excepted: bool,
    join: Option<Part>,
    /// Whether a blank stands before the piece at hand.
    is_apart: bool,
    pub because: Option<&'static str>,
}

/// Puts pieces into rules, if there is one way to do so.
pub(super) fn rules(pieces: &[Piece]) -> Option<Rules> {
    let mut rules = Rules::default();
    for (i, piece) in pieces.iter().enumerate() {
        let next = pieces.get(i + 1).map(|piece| &piece.what);
        rules.is_apart = piece.is_apart;
        match &piece.what {
            Part::Join(':') => rules.colon()?,
            join @ (Part::Join(_) | Part::And) => rules.joined(join)?,
            Part::Except => rules.begin_exception()?,
            what => rules.put(what, next)?,
        }
        if !matches!(piece.what, Part::Join(_) | Part::And) {
            rules.took(piece);
        }
    }
    let is_ended = matches!(rules.join, None | Some(Part::Join(','))); // a comma at the end says nothing
    (is_ended && !rules.now.is_empty()).then_some(())?;
    rules.close("");
    Some(rules)
}

impl Rules {
    pub fn all(&self) -> &[Rule] {
        &self.done
    }

    /// As the sheet rules write them; house sheets have no comma between rules.
    pub fn text(&self, is_house: bool) -> String {
        let separator = |rule: &Rule| if is_house && rule.separator == COMMA { SEMICOLON } else { rule.separator };
        self.done.iter().map(|rule| format!("{}{}", separator(rule), rule.text())).collect()
    }

    fn took(&mut self, piece: &Piece) {
        let rule = match self.exceptions.last_mut() {
            Some(exception) if self.is_excepted => exception,
            _ => &mut self.now,
        };
        rule.tokens.extend(piece.tokens.clone());
        self.join = None;
    }

    /// Ends the rule at hand, and begins one after a separator.
    fn close(&mut self, separator: &'static str) {
        self.done.push(std::mem::take(&mut self.now));
        self.done.append(&mut self.exceptions);
        self.now.separator = separator;
    }

    /// A colon after days, dates, a title or a state says nothing more.
    fn colon(&mut self) -> Option<()> {
        let is_begun = !self.now.has(Kind::Times) && self.now.note.is_none();
        (is_begun && self.join.is_none()).then_some(())
    }

    fn joined(&mut self, join: &Part) -> Option<()> {
        let is_comma_and = self.join == Some(Part::Join(',')) && *join == Part::And;
        (!self.now.is_empty() && (self.join.is_none() || is_comma_and)).then_some(())?;
        self.join = Some(join.clone());
        Some(())
    }

    fn put(&mut self, what: &Part, next: Option<&Part>) -> Option<()> {
        self.is_excepted = false;
        match what {
            Part::Item(kind, text) => self.item(*kind, text),
            Part::Hours(text) => {
                let may_be_days = self.now.has_days() && !self.now.has(Kind::Days);
                (!may_be_days).then_some(())?;
                self.item(Kind::Times, text)
            }
            Part::State(state) => self.state(state, next),
            Part::Note(note) => self.note(note, true),
            Part::Words(note) => self.note(note, self.now.has(Kind::Times) || self.now.state.is_some()),
            Part::Title(title) => self.title(title),
            Part::Always => {
                if let Some(separator) = self.separator() {
                    self.close(separator);
                }
                self.now.is_empty().then(|| self.now.is_always = true)
            }
            Part::Except | Part::Join(_) | Part::And => None,
        }
    }

    /// The separator that the sign before this place stands for, where a new rule begins.
    fn separator(&self) -> Option<&'static str> {
        match &self.join {
            Some(Part::Join(',')) => Some(COMMA),
            Some(Part::Join('|')) => Some(FALLBACK),
            Some(Part::Join(';') | Part::And) => Some(SEMICOLON),
            _ => None,
        }
    }

    fn note(&mut self, note: &str, is_sure: bool) -> Option<()> {
        let can_be = is_sure && self.join.is_none() && self.now.note.is_none() && self.exceptions.is_empty();
        can_be.then(|| self.now.note = Some(note.into()))
    }

    fn title(&mut self, title: &str) -> Option<()> {
        if !self.now.is_empty() {
            let separator = self.separator()?;
            self.close(separator);
        }
        self.now.title = Some(title.into());
        Some(())
    }

    fn state(&mut self, state: &'static str, next: Option<&Part>) -> Option<()> {
        let days_follow = matches!(next, Some(Part::Item(kind, _)) if *kind != Kind::Times);
        let begins_rule = match (&self.join, self.now.state) {
            _ if self.now.is_empty() => return Some(self.begin_with(state)),
            (Some(Part::Join(';' | '|')), _) => true,
            (Some(_), _) if !days_follow => return None,
            (Some(_), _) => true,
            (None, Some(_)) if !days_follow => return None,
            (None, Some(_)) => true,
            (None, None) => days_follow && self.now.has(Kind::Times),
        };
        if begins_rule {
            let separator = self.separator().unwrap_or(SEMICOLON);
            self.close(separator);
            return Some(self.begin_with(state));
        }
        (self.now.note.is_none() && self.exceptions.is_empty()).then(|| self.now.state = Some(state))
    }

    fn begin_with(&mut self, state: &'static str) {
        self.now.state = Some(state);
        self.now.is_turned = true;
    }

    /// `außer Montag`: days that are closed, as a rule after the one at hand.
    fn begin_exception(&mut self) -> Option<()> {
        let may_be = self.now.has_days() || self.now.has(Kind::Times);
        (may_be && self.now.state != Some("closed") && self.now.state != Some("off") && self.exceptions.is_empty())
            .then_some(())?;
        self.now.has_exceptions = self.now.has(Kind::Times);
        self.exceptions.push(Rule { separator: SEMICOLON, state: Some("off"), ..Rule::default() });
        self.is_excepted = true;
        Some(())
    }

    fn item(&mut self, kind: Kind, text: &str) -> Option<()> {
        if let Some(placed) = self.exception_item(kind, text) {
            return placed;
        }
        let last = self.now.items.last().map(|(kind, _)| *kind);
        let is_soft = matches!(self.join, Some(Part::Join(';'))) && !self.now.is_complete_without_times();
        let same_rule = match (&self.join, last) {
            _ if self.now.is_empty() => true,
            (Some(Part::Join('|')), _) => false,
            (Some(Part::Join(';')), Some(last)) => is_soft && self.goes_on_after_semicolon(kind, last),
            (Some(Part::Join(';')), None) => false,
            (None, None) if self.now.note.is_some() || self.now.is_always => return None, // `"Sauna" Mo`: a title, or a rule of its own
            _ if self.now.note.is_some() || self.now.is_always => false,
            (None, Some(last)) if self.now.state == Some("open") && kind == Kind::Times && last != kind => true,
            _ if self.now.state.is_some() && !self.now.is_turned => false,
            (join, None) => join.is_none() || self.now.title.is_some(),
            (_, Some(last)) if last == kind => return self.same_kind(kind, text),
            (join, Some(last)) if rank(kind) > rank(last) => return self.later_kind(kind, text, join.clone()),
            (None, Some(Kind::Times)) if !self.now.has_days() => return self.turned(kind, text),
            _ => !self.now.is_complete(),
        };
        if !same_rule {
            self.now.is_complete().then_some(())?;
            let separator = if self.join.is_none() { SEMICOLON } else { self.separator()? };
            self.close(separator);
        } else if last == Some(kind) {
            self.explain_list();
        }
        self.add(kind, text)
    }

    fn add(&mut self, kind: Kind, text: &str) -> Option<()> {
        // `closed PH, Mo-Fr 9-17`: the times belong to what is open.
        let is_wrong = kind == Kind::Times && self.now.is_turned && self.now.state.map_or(false, |state| state != "open");
        let is_after_exception = kind == Kind::Times && self.now.has_exceptions;
        (!is_wrong && !is_after_exception).then(|| self.now.items.push((kind, text.into())))
    }

    /// `Mo;09:00-18:00`, `Mo-Fr 9-12; 14-18`, `Mo;Tu;We 9-12`
    fn goes_on_after_semicolon(&self, kind: Kind, last: Kind) -> bool {
        let are_days = last == Kind::Days && kind == Kind::Days && !self.now.has(Kind::Times);
        let are_times = kind == Kind::Times && self.now.has_days();
        self.exceptions.is_empty() && (are_days || are_times)
    }

    /// Why a list is written otherwise than it was.
    fn explain_list(&mut self) {
        let is_odd = self.join.as_ref().map_or(false, |join| *join != Part::Join(',') || self.is_apart);
        if is_odd {
            self.because = self.because.or(Some("a list has commas without blanks"));
        }
    }

    fn same_kind(&mut self, kind: Kind, text: &str) -> Option<()> {
        if self.now.is_turned && self.now.has(Kind::Times) && kind != Kind::Times {
            return None; // `9-17 Mo-Fr, Sa`: more days, or a new rule
        }
        match self.join {
            Some(Part::Join(',' | '/' | '+') | Part::And) => self.explain_list(),
            None if kind == Kind::Times => {}
            _ => return None,
        }
        self.add(kind, text)
    }

    fn later_kind(&mut self, kind: Kind, text: &str, join: Option<Part>) -> Option<()> {
        let is_next_turned = self.now.is_turned && self.now.has(Kind::Times);
        match join {
            _ if is_next_turned => {
                let separator = if join.is_none() { SEMICOLON } else { self.separator()? };
                self.close(separator);
            }
            None => {}
            Some(Part::Join(',')) if kind == Kind::Times => {}
            _ => return None,
        }
        self.add(kind, text)
    }

    /// `10:00-20:00 Mo-Fr`: times before their days.
    fn turned(&mut self, kind: Kind, text: &str) -> Option<()> {
        self.now.is_turned = true;
        self.because = Some("days stand before their times");
        self.add(kind, text)
    }

    /// Where days are excepted, the next days belong to the exception.
    fn exception_item(&mut self, kind: Kind, text: &str) -> Option<Option<()>> {
        let join = self.join.clone();
        let exception = self.exceptions.last_mut()?;
        let is_first = exception.items.is_empty();
        let goes_on = matches!(join, Some(Part::Join(',') | Part::And))
            && exception.items.last().map_or(false, |(known, _)| *known == kind);
        match kind {
            Kind::Times if is_first => Some(None),
            _ if is_first || goes_on => {
                exception.items.push((kind, text.into()));
                self.is_excepted = true;
                Some(Some(()))
            }
            Kind::Times if join.is_none() || join == Some(Part::Join(',')) => None,
            _ if matches!(join, Some(Part::Join(';'))) => None,
            _ => Some(None),
        }
    }
}

impl Rule {
    /// Whether a state or a note ends it.
    fn is_complete_without_times(&self) -> bool {
        self.state.is_some() || self.note.is_some() || self.is_always
    }
}
