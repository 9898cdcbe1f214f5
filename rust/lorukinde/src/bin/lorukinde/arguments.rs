//! What the program is asked to do.
use std::ffi::{OsStr, OsString};

use lorukinde::{Language, Manner, RecordedDay, Touch};

use crate::days::{days_between, Days};
use crate::input::Input;
use crate::page::Year;
use crate::tally::Shape;

/// The help; the examples in it are run by the tests.
pub const HELP: &str = include_str!("help.txt");

/// The name that stands for standard input.
pub const STANDARD_INPUT: &str = "-";

pub enum Request {
    Help,
    Version,
    Run(Run),
}

pub struct Run {
    pub command: Command,
    pub manner: Manner,
    /// None: as `say` says rules where no language is asked for.
    pub language: Option<Language>,
    /// The year of which a page shows the days.
    pub year: Year,
    /// `check` and `json` say remarks too, and a remark counts as much as a refusal.
    pub is_strict: bool,
    /// Blank lines and those that begin with `#` are passed over.
    pub has_comments: bool,
    pub inputs: Vec<Input>,
}

pub enum Command {
    Say,
    Check,
    Json,
    Tally(Shape),
    Days(Days),
    Months,
    Page,
}

/// The commands by their names.
const COMMANDS: [&str; 7] = ["say", "check", "json", "tally", "days", "months", "page"];

const ALL_ANSWERS: [Touch; 3] = [Touch::No, Touch::Yes, Touch::Undecided];

/// What was found so far among the arguments.
#[derive(Default)]
struct Found {
    command: Option<String>,
    edition: Option<Manner>,
    house: bool,
    is_json: bool,
    is_each: bool,
    from: Option<RecordedDay>,
    to: Option<RecordedDay>,
    only: Option<Vec<Touch>>,
    year: Option<Year>,
    language: Option<Language>,
    is_strict: bool,
    has_comments: bool,
    inputs: Vec<Argument>,
}

/// An argument that says what is read.
enum Argument {
    /// A file; or a sheet, if there is no such file and it looks like one.
    Name(OsString),
    Sheet(OsString),
}

pub fn parse(arguments: impl Iterator<Item = OsString>) -> Result<Request, String> {
    let mut arguments = arguments;
    let mut found = Found::default();
    while let Some(argument) = arguments.next() {
        match argument.to_str() {
            Some("--help" | "-h") => return Ok(Request::Help),
            Some("--version" | "-V") => return Ok(Request::Version),
            Some("--house") => found.house = true,
            Some("--json") => found.is_json = true,
            Some("--each") => found.is_each = true,
            Some("--strict") => found.is_strict = true,
            Some("--comments") => found.has_comments = true,
            Some("--") => found.inputs.extend(arguments.by_ref().map(Argument::Name)),
            Some(option) if option.starts_with('-') && option != STANDARD_INPUT => found.option(option, || arguments.next())?,
            Some(name) if found.command.is_none() => found.command = Some(known(name)?),
            _ => found.inputs.push(Argument::Name(argument)),
        }
    }
    found.request()
}

fn known(name: &str) -> Result<String, String> {
    if COMMANDS.contains(&name) {
        return Ok(name.into());
    }
    Err(format!("there is no command {name}, but {}", names(" and ")))
}

/// The names of the commands, the last after a word.
fn names(last: &str) -> String {
    match COMMANDS.split_last() {
        Some((end, before)) => before.join(", ") + last + end,
        None => String::new(),
    }
}

fn edition(value: Option<&OsStr>) -> Result<Manner, String> {
    match value.map(|value| value.to_string_lossy()).as_deref() {
        Some("1") => Ok(Manner::Edition1),
        Some("2") => Ok(Manner::Edition2),
        Some(other) => Err(format!("there is no edition {other} of the sheet rules, but 1 and 2")),
        None => Err("--edition needs a number, 1 or 2".into()),
    }
}

fn language(value: Option<&OsStr>) -> Result<Language, String> {
    let code = value.ok_or("--language needs a code, as de")?.to_string_lossy();
    Language::from_code(&code).ok_or(format!("there is no language {code} here, but en, de, fr and nl"))
}

fn year(value: Option<&OsStr>) -> Result<Year, String> {
    let digits = value.ok_or("--year needs a number")?.to_string_lossy();
    let year = digits.parse().ok().and_then(Year::of);
    year.ok_or(format!("there is no year {digits} here, but those from 1900 to 9999"))
}

/// A day as `2021-01-31`.
fn day(option: &str, value: Option<&OsStr>) -> Result<RecordedDay, String> {
    let text = value.map(|value| value.to_string_lossy()).unwrap_or_default();
    let numbers: Vec<_> = text.split('-').map(|digits| digits.parse::<u32>().unwrap_or(0)).collect();
    match numbers[..] {
        [year, month, day] if RecordedDay::new(year, month, day).is_known() => Ok(RecordedDay::new(year, month, day)),
        _ => Err(format!("{option} needs a day from 1900-01-01 to 9999-12-31, as 2021-01-31")),
    }
}

/// The answers that are wanted, as `yes,undecided`.
fn only(value: Option<&OsStr>) -> Result<Vec<Touch>, String> {
    let text = value.map(|value| value.to_string_lossy()).unwrap_or_default();
    let named = |name| ALL_ANSWERS.into_iter().find(|answer| answer.to_string() == name);
    text.split(',')
        .map(|name| named(name).ok_or_else(|| "--only needs yes, no or undecided, with commas between".to_string()))
        .collect()
}

impl Found {
    /// An option that takes a value, after `=` or as the next argument.
    fn option(&mut self, option: &str, next: impl FnOnce() -> Option<OsString>) -> Result<(), String> {
        let (name, value) = match option.split_once('=') {
            Some((name, value)) if option.starts_with("--") => (name, Some(OsString::from(value))),
            _ => (option, None),
        };
        let value = || value.or_else(next);
        match name {
            "--edition" => self.edition = Some(edition(value().as_deref())?),
            "--language" => self.language = Some(language(value().as_deref())?),
            "--from" => self.from = Some(day(name, value().as_deref())?),
            "--to" => self.to = Some(day(name, value().as_deref())?),
            "--only" => self.only = Some(only(value().as_deref())?),
            "--year" => self.year = Some(year(value().as_deref())?),
            "-e" => self.inputs.push(Argument::Sheet(value().ok_or("-e needs a sheet")?)),
            _ => return Err(format!("there is no option {option}")),
        }
        Ok(())
    }

    /// The command, and that each option goes with it.
    fn command(&mut self) -> Result<Command, String> {
        let name = self.command.take().ok_or_else(|| format!("a command is missing: {}", names(" or ")))?;
        let is = |names: &[&str]| names.contains(&name.as_str());
        if self.is_json && !is(&["tally", "days"]) {
            return Err("--json is for tally and days alone".into());
        }
        if self.is_each && !is(&["tally"]) {
            return Err("--each is for tally alone".into());
        }
        if (self.from.is_some() || self.to.is_some() || self.only.is_some()) && !is(&["days"]) {
            return Err("--from, --to and --only are for days alone".into());
        }
        if self.year.is_some() && !is(&["page"]) {
            return Err("--year is for page alone".into());
        }
        match name.as_str() {
            "say" => Ok(Command::Say),
            "check" => Ok(Command::Check),
            "json" => Ok(Command::Json),
            "tally" => Ok(Command::Tally(Shape { json: self.is_json, each: self.is_each })),
            "days" => self.days(),
            "months" => Ok(Command::Months),
            _ => Ok(Command::Page),
        }
    }

    fn days(&mut self) -> Result<Command, String> {
        let (from, to) = self.from.zip(self.to).ok_or("days needs --from and --to")?;
        if to.numbers() < from.numbers() {
            return Err(format!("{to} is before {from}"));
        }
        let only = self.only.take().unwrap_or_else(|| ALL_ANSWERS.to_vec());
        Ok(Command::Days(Days { days: days_between(from, to), only, json: self.is_json }))
    }

    fn request(mut self) -> Result<Request, String> {
        let command = self.command()?;
        let manner = match (self.house, self.edition) {
            (false, edition) => edition.unwrap_or_default(),
            (true, None | Some(Manner::Edition1)) => Manner::House,
            (true, Some(_)) => {
                return Err("house sheets are read by edition 1: --house and --edition 2 exclude each other".into())
            }
        };
        if self.inputs.is_empty() {
            self.inputs.push(Argument::Name(STANDARD_INPUT.into()));
        }
        let inputs = self.inputs.into_iter().map(|argument| match argument {
            Argument::Name(name) => Input::named(name, manner),
            Argument::Sheet(sheet) => Input::Sheet(sheet),
        });
        let (language, is_strict, has_comments) = (self.language, self.is_strict, self.has_comments);
        let year = self.year.unwrap_or_else(Year::current);
        Ok(Request::Run(Run { command, manner, language, year, is_strict, has_comments, inputs: inputs.collect() }))
    }
}
