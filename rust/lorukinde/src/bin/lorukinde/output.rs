//! What is written: the answers to standard output, in large pieces, and between them the progress to a terminal.
use std::io::{self, Write};
use std::time::{Duration, Instant};

use crate::terminal::{is_terminal, Stream};

/// So much is gathered before it is written.
const PIECE_BYTES: usize = 1 << 16;
/// The clock is looked at once in so many sheets.
const SHEETS_PER_LOOK: u64 = 1 << 10;
/// How long it takes until progress is shown, and then until it is shown again.
const PAUSE: Duration = Duration::from_secs(1);
/// To the line's beginning, and the line erased.
const ERASE_LINE: &str = "\r\x1b[K";

pub struct Output {
    text: Vec<u8>,
    /// Someone may be looking at the answers as they come.
    is_watched: bool,
    shows_progress: bool,
    progress_stands: bool,
    sheets: u64,
    last_look: Instant,
}

impl Output {
    pub fn new() -> Output {
        Output {
            text: Vec::with_capacity(2 * PIECE_BYTES),
            is_watched: is_terminal(Stream::Output),
            shows_progress: is_terminal(Stream::Error),
            progress_stands: false,
            sheets: 0,
            last_look: Instant::now(),
        }
    }

    /// Where the answers go. A sheet's answer is written after [`Output::sheet_done`].
    pub fn text(&mut self) -> &mut Vec<u8> {
        &mut self.text
    }

    pub fn sheet_done(&mut self) -> io::Result<()> {
        self.sheets += 1;
        if self.text.len() >= PIECE_BYTES || (self.is_watched && !self.text.is_empty()) {
            self.write()?;
        }
        if self.shows_progress && self.sheets % SHEETS_PER_LOOK == 0 && self.last_look.elapsed() >= PAUSE {
            self.last_look = Instant::now();
            self.progress_stands = true;
            // Progress that cannot be shown is no failure.
            let _ = write!(io::stderr(), "{ERASE_LINE}lorukinde: {} sheets", self.sheets);
        }
        Ok(())
    }

    pub fn clear_progress(&mut self) {
        if std::mem::take(&mut self.progress_stands) {
            let _ = write!(io::stderr(), "{ERASE_LINE}");
        }
    }

    fn write(&mut self) -> io::Result<()> {
        if self.is_watched {
            self.clear_progress();
        }
        let mut out = io::stdout().lock();
        out.write_all(&self.text)?;
        self.text.clear();
        out.flush()
    }

    pub fn finish(mut self) -> io::Result<()> {
        self.clear_progress();
        self.write()
    }
}
