//! JSON, written into memory: values with commas between them, strings escaped.
use std::fmt::Display;
use std::io::Write;
use std::ops::Range;

use lorukinde::characters;

use crate::plain::is_plain;

pub struct Writer<'a> {
    out: &'a mut Vec<u8>,
    /// Whether a value stands before this place in its object or array.
    follows: bool,
}

impl<'a> Writer<'a> {
    pub fn new(out: &'a mut Vec<u8>) -> Writer<'a> {
        Writer { out, follows: false }
    }

    fn value(&mut self, text: impl Display) {
        self.comma();
        let written = write!(self.out, "{text}");
        debug_assert!(written.is_ok()); // memory takes any text
        self.follows = true;
    }

    fn comma(&mut self) {
        if self.follows {
            self.out.push(b',');
        }
    }

    fn open(&mut self, bracket: u8) {
        self.comma();
        self.out.push(bracket);
        self.follows = false;
    }

    fn close(&mut self, bracket: u8) {
        self.out.push(bracket);
        self.follows = true;
    }

    pub fn object(&mut self) {
        self.open(b'{');
    }

    pub fn end_object(&mut self) {
        self.close(b'}');
    }

    pub fn array(&mut self) {
        self.open(b'[');
    }

    pub fn end_array(&mut self) {
        self.close(b']');
    }

    /// A key of an object; its value comes next.
    pub fn key(&mut self, key: &str) -> &mut Writer<'a> {
        self.text(key);
        self.out.push(b':');
        self.follows = false;
        self
    }

    pub fn number(&mut self, number: impl Display) {
        self.value(number);
    }

    pub fn truth(&mut self, truth: bool) {
        self.value(truth);
    }

    pub fn null(&mut self) {
        self.value("null");
    }

    pub fn number_or_null(&mut self, number: Option<i32>) {
        match number {
            Some(number) => self.number(number),
            None => self.null(),
        }
    }

    pub fn range(&mut self, range: &Range<usize>) {
        self.array();
        self.number(range.start);
        self.number(range.end);
        self.end_array();
    }

    pub fn text(&mut self, text: &str) {
        self.bytes(text.as_bytes());
    }

    /// A text of any bytes; one that is no letter is written as U+FFFD.
    pub fn bytes(&mut self, text: &[u8]) {
        self.comma();
        self.out.push(b'"');
        if text.iter().all(|byte| is_plain(byte) && !b"\"\\".contains(byte)) {
            self.out.extend_from_slice(text); // nearly every text, at once
        } else {
            characters(text).for_each(|(_, character)| self.letter(character.shown()));
        }
        self.out.push(b'"');
        self.follows = true;
    }

    fn letter(&mut self, letter: char) {
        let mut space = [0; 4];
        match letter {
            '"' | '\\' => self.out.extend_from_slice(&[b'\\', letter as u8]),
            '\0'..='\x1f' => {
                let written = write!(self.out, "\\u{:04x}", u32::from(letter));
                debug_assert!(written.is_ok()); // memory takes any text
            }
            _ => self.out.extend_from_slice(letter.encode_utf8(&mut space).as_bytes()),
        }
    }
}
