//! Times in words.
use super::language::{fill, Sentences};
use crate::meaning::{Span, Time, MIDNIGHT};

const HOUR: i32 = 60;

impl Sentences {
    pub(super) fn time(&self, some: Time) -> String {
        match some {
            Time::Clock(later) if later > MIDNIGHT => fill(self.next_day, &[&clock(later - MIDNIGHT)]),
            Time::Clock(minutes) => clock(minutes),
            Time::Sun(event, offset) => self.moved(offset, (self.minute, self.minutes), self.events[event as usize - 1].into()),
        }
    }

    /// `22:00 to 02:00 the next day`, `from 10:00, end open`
    pub(super) fn span(&self, some: &Span) -> String {
        if some.is_point {
            return fill(self.at, &[&self.time(some.start)]);
        }
        let start = self.time(some.start);
        if some.open_end && some.end == Time::Clock(MIDNIGHT) {
            return fill(self.open_end, &[&start]);
        }
        let end = if ends_next_day(some) { fill(self.next_day, &[&self.time(some.end)]) } else { self.time(some.end) };
        let span = fill(self.until, &[&start, &end]);
        let span = if some.open_end { fill(self.or_later, &[&span]) } else { span };
        match some.repeat {
            None => span,
            Some(1) => fill(self.every, &[&span, self.minute]),
            Some(minutes) => fill(self.every, &[&span, &fill(self.minutes, &[&minutes.to_string()])]),
        }
    }
}

fn clock(minutes: i32) -> String {
    format!("{:02}:{:02}", minutes / HOUR, minutes % HOUR)
}

/// Whether the clock has gone round at the end (`18:00-09:00`, `10:00-10:00`).
fn ends_next_day(span: &Span) -> bool {
    matches!((span.start, span.end), (Time::Clock(start), Time::Clock(end)) if end <= start)
}
