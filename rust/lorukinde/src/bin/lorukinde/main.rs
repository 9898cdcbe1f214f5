//! The program `lorukinde`: reads sheets, one a line, and says what they mean or where they are wrong.
#![deny(unsafe_code)]

mod arguments;
mod caret;
mod check;
mod days;
mod input;
mod json;
mod months;
mod output;
mod page;
mod plain;
mod say;
mod sheet;
mod tally;
#[allow(unsafe_code)]
mod terminal;

use std::env;
use std::io::{self, Write};
use std::process::ExitCode;

use arguments::{Command, Request, Run, HELP};
use input::{Input, Lines};
use lorukinde::{Record, Refusal, SHEET_BYTES};
use output::Output;
use page::Page;
use sheet::Sheet;
use tally::Figures;

/// All parts were read.
const ALL_READ: u8 = 0;
/// Some part was refused; or, where that is asked for, remarked on.
const SOME_REFUSED: u8 = 1;
/// The program was called wrongly, an input could not be read, or the output not be written.
const FAILED: u8 = 2;

fn main() -> ExitCode {
    let code = match arguments::parse(env::args_os().skip(1)) {
        Ok(Request::Help) => shown(HELP),
        Ok(Request::Version) => shown(concat!("lorukinde ", env!("CARGO_PKG_VERSION"), "\n")),
        Ok(Request::Run(run)) => read_all(&run),
        Err(wrong) => complain(&format!("{wrong}; lorukinde --help says how to call it")),
    };
    ExitCode::from(code)
}

fn shown(text: &str) -> u8 {
    match io::stdout().write_all(text.as_bytes()) {
        Ok(()) => ALL_READ,
        Err(error) => output_failed(&error),
    }
}

/// One line on standard error. There is nothing to be done if that fails too.
fn complain(what: &str) -> u8 {
    let _ = writeln!(io::stderr(), "lorukinde: {what}");
    FAILED
}

/// A reader that has gone, as `head` goes, needs no word.
fn output_failed(error: &io::Error) -> u8 {
    match error.kind() {
        io::ErrorKind::BrokenPipe => FAILED,
        _ => complain(&format!("the output cannot be written: {error}")),
    }
}

/// Reads every input to its end, one that cannot be read left out, and answers the exit code.
fn read_all(run: &Run) -> u8 {
    let mut output = Output::new();
    let mut page = Page::new(run);
    let mut table = vec![Record::EMPTY; SHEET_BYTES]; // no sheet has more records than bytes
    let mut figures = Figures::default();
    let mut code = ALL_READ;
    if let Command::Days(asked) = &run.command {
        days::begin(asked, output.text());
    }
    for input in &run.inputs {
        figures.begin(input.name());
        match read_input(run, input, &mut table, &mut figures, &mut page, &mut output) {
            Ok(refused) => code = code.max(if refused { SOME_REFUSED } else { ALL_READ }),
            Err(Failure::Input(error)) => {
                output.clear_progress();
                page.unread(input.name(), &error);
                code = complain(&format!("{}: {error}", input.name().to_string_lossy()));
            }
            Err(Failure::Output(error)) => return output_failed(&error),
            Err(Failure::Figures(refusal)) => return complain(&refusal.to_string()),
            Err(Failure::PageFull) => {
                output.clear_progress();
                return complain("the page would be too large for a browser: make a page of fewer sheets");
            }
        }
    }
    if let Command::Tally(shape) = &run.command {
        if let Err(refusal) = figures.write(*shape, output.text()) {
            return complain(&refusal.to_string());
        }
    }
    if let Command::Page = run.command {
        page.write(run, output.text());
    }
    match output.finish() {
        Ok(()) => code,
        Err(error) => output_failed(&error),
    }
}

enum Failure {
    Input(io::Error),
    Output(io::Error),
    Figures(Refusal),
    /// A page has no room for another sheet.
    PageFull,
}

/// Whether some part was refused, or remarked on if that counts.
fn read_input(
    run: &Run,
    input: &Input,
    table: &mut [Record],
    figures: &mut Figures,
    page: &mut Page,
    output: &mut Output,
) -> Result<bool, Failure> {
    let mut lines = Lines::open(input).map_err(Failure::Input)?;
    let mut refused = false;
    while let Some(line) = lines.next().map_err(Failure::Input)? {
        if run.has_comments && line.is_comment() {
            continue;
        }
        let sheet = Sheet { manner: run.manner, language: run.language, is_strict: run.is_strict, input: input.name(), line };
        let text = output.text();
        let found = match &run.command {
            Command::Say => say::say(&sheet, table, text),
            Command::Check => check::check(&sheet, table, text),
            Command::Json => json::json(&sheet, table, text),
            Command::Tally(_) => figures.add(&sheet, table).map_err(Failure::Figures)?,
            Command::Days(asked) => days::days(asked, &sheet, table, text),
            Command::Months => months::months(&sheet, table, text),
            Command::Page if page.has_room() => page.add(&sheet, table),
            Command::Page => return Err(Failure::PageFull),
        };
        refused |= found.is_refused || (run.is_strict && found.is_remarked);
        output.sheet_done().map_err(Failure::Output)?;
    }
    Ok(refused)
}
