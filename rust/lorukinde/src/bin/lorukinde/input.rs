//! Sheets, one a line, out of a file or standard input, one at a time.
use std::ffi::{OsStr, OsString};
use std::fs::File;
use std::io::{self, BufRead, BufReader, Cursor, Read};
use std::os::unix::ffi::OsStrExt;
use std::path::Path;

use lorukinde::{parts_in, Manner, SHEET_BYTES};

use crate::arguments::STANDARD_INPUT;

/// So much of a line is kept: a sheet that is one byte too long, and byte 13. So a line of any length takes no more room than that.
const KEPT_BYTES: usize = SHEET_BYTES + 2;
/// By which a sheet among the arguments is called.
pub const SHEET_ARGUMENT: &str = "-e";
const BUFFER_BYTES: usize = 1 << 16;

/// What is read: a file, or a sheet that stands among the arguments.
pub enum Input {
    File(OsString),
    Sheet(OsString),
}

impl Input {
    /// A file; or a sheet, if there is no such file and it looks like a sheet: it has a blank or a `;`, or it is read.
    pub fn named(name: OsString, manner: Manner) -> Input {
        let text = name.as_bytes();
        let looks_so = || text.iter().any(|byte| b" ;".contains(byte)) || parts_in(manner, text).all(|part| part.reading.is_ok());
        let is_file = name == STANDARD_INPUT || Path::new(&name).exists();
        if !is_file && looks_so() {
            Input::Sheet(name)
        } else {
            Input::File(name)
        }
    }

    /// By which it is called: a file's name, `-` for standard input, `-e` for a sheet.
    pub fn name(&self) -> &OsStr {
        match self {
            Input::File(name) => name,
            Input::Sheet(_) => OsStr::new(SHEET_ARGUMENT),
        }
    }
}

pub struct Lines {
    from: BufReader<Box<dyn Read>>,
    kept: Vec<u8>,
    number: usize,
}

/// A sheet as it stands in its line, without byte 10 at its end and byte 13 before that.
#[derive(Clone, Copy)]
pub struct Line<'a> {
    /// Counted from 1.
    pub number: usize,
    /// The sheet; of one that is too long, its beginning.
    pub text: &'a [u8],
    /// How many bytes the sheet has.
    pub bytes: usize,
}

impl Line<'_> {
    /// Whether it is no sheet, where there are comments: blank, or after `#`.
    pub fn is_comment(&self) -> bool {
        let first = self.text.iter().find(|byte| !byte.is_ascii_whitespace());
        matches!(first, None | Some(b'#'))
    }
}

impl Lines {
    pub fn open(input: &Input) -> io::Result<Lines> {
        let from: Box<dyn Read> = match input {
            Input::Sheet(sheet) => Box::new(Cursor::new(sheet.as_bytes().to_vec())),
            Input::File(name) if name == STANDARD_INPUT => Box::new(io::stdin()),
            Input::File(name) => Box::new(File::open(name)?),
        };
        Ok(Lines { from: BufReader::with_capacity(BUFFER_BYTES, from), kept: Vec::with_capacity(KEPT_BYTES), number: 0 })
    }

    /// The next line, if there is one. A byte 10 at the end of the input starts none.
    pub fn next(&mut self) -> io::Result<Option<Line<'_>>> {
        self.kept.clear();
        let (mut bytes, mut ended) = (0, false);
        while !ended {
            let some = match self.from.fill_buf() {
                Err(error) if error.kind() == io::ErrorKind::Interrupted => continue,
                some => some?,
            };
            if some.is_empty() {
                break;
            }
            let newline = some.iter().position(|byte| *byte == b'\n');
            let length = newline.unwrap_or(some.len());
            self.kept.extend_from_slice(&some[..length.min(KEPT_BYTES - self.kept.len())]);
            bytes += length;
            ended = newline.is_some();
            self.from.consume(length + usize::from(ended));
        }
        if bytes == 0 && !ended {
            return Ok(None);
        }
        self.number += 1;
        Ok(Some(self.line(bytes, ended)))
    }

    fn line(&self, bytes: usize, ended: bool) -> Line<'_> {
        let is_whole = bytes == self.kept.len();
        match self.kept.split_last() {
            Some((b'\r', text)) if is_whole && ended => Line { number: self.number, text, bytes: bytes - 1 },
            _ => Line { number: self.number, text: &self.kept, bytes },
        }
    }
}
