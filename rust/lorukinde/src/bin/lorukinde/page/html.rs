//! A page's bytes: markup of the program's own, and all else as text.
use std::fmt::{self, Display, Write};

use lorukinde::characters;

use crate::plain::{is_plain, shown};

/// Markup can only be what stands in the program's source, and everything that comes from a sheet, a file's name or a sentence goes
/// through [`Html::text`] or [`Html::bytes`]; so no markup of a sheet ever gets into a page.
#[derive(Default)]
pub struct Html {
    out: Vec<u8>,
    /// Where ` open` may be put in, right after the name of an element `details`.
    calendars: Vec<usize>,
}

impl Html {
    pub fn markup(&mut self, markup: &'static str) -> &mut Html {
        self.out.extend_from_slice(markup.as_bytes());
        self
    }

    pub fn text(&mut self, text: impl Display) -> &mut Html {
        let written = write!(Text(&mut self.out), "{text}");
        debug_assert!(written.is_ok()); // memory takes any text
        self
    }

    /// A text of any bytes; one that is no letter is shown as U+FFFD.
    pub fn bytes(&mut self, text: &[u8]) -> &mut Html {
        Text(&mut self.out).bytes(text);
        self
    }

    /// A sentence, with what stands between two backquotes in it as code. An odd number of them parts nothing.
    pub fn sentence(&mut self, sentence: impl Display) -> &mut Html {
        let sentence = sentence.to_string();
        if sentence.matches('`').count() % 2 == 1 {
            return self.text(sentence);
        }
        for (i, piece) in sentence.split('`').enumerate() {
            match i % 2 {
                0 => self.text(piece),
                _ => self.markup("<code>").text(piece).markup("</code>"),
            };
        }
        self
    }

    /// The beginning of a calendar, which [`Html::finish`] opens or leaves closed.
    pub fn calendar(&mut self) -> &mut Html {
        self.markup("<details");
        self.calendars.push(self.out.len());
        self.markup(" class=calendar>")
    }

    pub fn bytes_so_far(&self) -> usize {
        self.out.len()
    }

    /// All of another text, after this one's.
    pub fn append(&mut self, other: Html) -> &mut Html {
        let begin = self.out.len();
        self.calendars.extend(other.calendars.iter().map(|place| begin + place));
        self.out.extend_from_slice(&other.out);
        self
    }

    /// Writes everything, with the calendars open or closed.
    pub fn finish(self, are_open: bool, to: &mut Vec<u8>) {
        let mut written = 0;
        for place in self.calendars.into_iter().filter(|_| are_open) {
            to.extend_from_slice(&self.out[written..place]);
            to.extend_from_slice(b" open");
            written = place;
        }
        to.extend_from_slice(&self.out[written..]);
    }
}

/// Text between tags or in a quoted attribute: no character of it begins or ends markup, and none changes what stands beside it.
struct Text<'a>(&'a mut Vec<u8>);

impl Text<'_> {
    fn bytes(&mut self, text: &[u8]) {
        if text.iter().all(|byte| is_plain(byte) && !b"&<>\"'".contains(byte)) {
            return self.0.extend_from_slice(text); // nearly every text, at once
        }
        characters(text).for_each(|(_, character)| self.letter(shown(character.shown())));
    }

    fn letter(&mut self, letter: char) {
        let mut space = [0; 4];
        let escaped = match letter {
            '&' => "&amp;",
            '<' => "&lt;",
            '>' => "&gt;",
            '"' => "&quot;",
            '\'' => "&#39;",
            _ => letter.encode_utf8(&mut space),
        };
        self.0.extend_from_slice(escaped.as_bytes());
    }
}

impl fmt::Write for Text<'_> {
    fn write_str(&mut self, text: &str) -> fmt::Result {
        self.bytes(text.as_bytes());
        Ok(())
    }
}

#[cfg(test)]
mod tests {
    use super::*;

    fn written(write: impl FnOnce(&mut Html) -> &mut Html) -> String {
        let (mut html, mut out) = (Html::default(), Vec::new());
        write(&mut html);
        html.finish(false, &mut out);
        String::from_utf8(out).unwrap()
    }

    #[test]
    fn anything_is_text() {
        for byte in 0..=255 {
            let text = written(|html| html.bytes(&[byte]));
            assert!(!text.contains(&['<', '>', '"', '\''][..]), "{byte}: {text}");
            assert!(text.chars().all(|letter| letter == '\t' || !letter.is_control()), "{byte}: {text:?}");
        }
        assert_eq!(written(|html| html.text("<b a=\"'\">&amp;")), "&lt;b a=&quot;&#39;&quot;&gt;&amp;amp;");
        assert_eq!(written(|html| html.bytes("\u{202e}\u{1f600}\0".as_bytes())), "\u{fffd}\u{1f600}\u{2400}");
    }

    #[test]
    fn sentences() {
        assert_eq!(written(|html| html.sentence("write `<b>`, not `x`")), "write <code>&lt;b&gt;</code>, not <code>x</code>");
        assert_eq!(written(|html| html.sentence("``` does not fit")), "``` does not fit");
    }

    #[test]
    fn calendars_open_and_closed() {
        let page = || {
            let (mut first, mut second) = (Html::default(), Html::default());
            first.text("a").calendar().text("b");
            second.text("c").calendar();
            first.append(second);
            first
        };
        let (mut closed, mut open) = (Vec::new(), Vec::new());
        page().finish(false, &mut closed);
        page().finish(true, &mut open);
        assert_eq!(closed, b"a<details class=calendar>bc<details class=calendar>");
        assert_eq!(open, b"a<details open class=calendar>bc<details open class=calendar>");
    }
}
