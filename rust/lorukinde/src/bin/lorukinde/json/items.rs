//! The items of a rule: each record's words in clear.
use lorukinde::{Date, Dates, Day, Holiday, HolidayKind, Meaning, Months, Placed, Span, Steps, Time, ToWeekday, Weekdays};

use super::writer::Writer;

pub fn item(w: &mut Writer<'_>, placed: &Placed) {
    w.object();
    w.key("kind").text(kind(&placed.meaning));
    w.key("place").number(placed.place);
    match &placed.meaning {
        Meaning::Years(some) | Meaning::Weeks(some) => steps(w, some),
        Meaning::Months(some) => months(w, some),
        Meaning::Dates(some) => dates(w, some),
        Meaning::Weekdays(some) => weekdays(w, some),
        Meaning::Holiday(some) => holiday(w, some),
        Meaning::Span(some) => span(w, some),
        Meaning::Head(_) | Meaning::Raw(_) => {} // no reading has them among its items
    }
    w.end_object();
}

fn kind(meaning: &Meaning) -> &'static str {
    match meaning {
        Meaning::Years(_) => "years",
        Meaning::Months(_) => "months",
        Meaning::Dates(_) => "dates",
        Meaning::Weeks(_) => "weeks",
        Meaning::Weekdays(_) => "weekdays",
        Meaning::Holiday(_) => "holiday",
        Meaning::Span(_) => "span",
        Meaning::Head(_) | Meaning::Raw(_) => "other",
    }
}

fn steps(w: &mut Writer<'_>, some: &Steps) {
    w.key("from").number(some.first);
    w.key("to").number(some.last);
    w.key("step").number(some.step);
}

fn months(w: &mut Writer<'_>, some: &Months) {
    w.key("year").number_or_null(some.year);
    w.key("from").text(some.first.name());
    w.key("to").text(some.last.name());
}

fn dates(w: &mut Writer<'_>, some: &Dates) {
    w.key("from");
    date(w, &some.start);
    w.key("to");
    date(w, &some.end);
}

fn date(w: &mut Writer<'_>, some: &Date) {
    w.object();
    match some.day {
        Day::Fixed { month, day } => {
            w.key("form").text("fixed");
            w.key("month").text(month.name());
            w.key("day").number(day);
        }
        Day::Nth { month, weekday, n } => {
            w.key("form").text("nth");
            w.key("month").text(month.name());
            w.key("weekday").text(weekday.name());
            w.key("n").number(n);
        }
        Day::Easter => w.key("form").text("easter"),
    }
    w.key("year").number_or_null(some.year);
    w.key("day_offset").number(some.day_offset);
    let (next, previous) = match some.to_weekday {
        None => (None, None),
        Some(ToWeekday::Next(weekday)) => (Some(weekday), None),
        Some(ToWeekday::Previous(weekday)) => (None, Some(weekday)),
    };
    for (key, weekday) in [("next", next), ("previous", previous)] {
        match weekday {
            Some(weekday) => w.key(key).text(weekday.name()),
            None => w.key(key).null(),
        }
    }
    w.end_object();
}

fn weekdays(w: &mut Writer<'_>, some: &Weekdays) {
    w.key("from").text(some.first.name());
    w.key("to").text(some.last.name());
    w.key("marks");
    if some.is_every_week() {
        w.null();
    } else {
        w.array();
        some.marks().for_each(|n| w.number(n));
        w.end_array();
    }
    w.key("day_offset").number(some.day_offset);
}

fn holiday(w: &mut Writer<'_>, some: &Holiday) {
    w.key("holiday").text(match some.kind {
        HolidayKind::Public => "public",
        HolidayKind::School => "school",
    });
    w.key("day_offset").number(some.day_offset);
}

fn span(w: &mut Writer<'_>, some: &Span) {
    w.key("from");
    time(w, some.start);
    w.key("to");
    time(w, some.end);
    w.key("repeat").number_or_null(some.repeat);
    w.key("open_end").truth(some.open_end);
    w.key("point").truth(some.is_point);
}

fn time(w: &mut Writer<'_>, time: Time) {
    const HOUR: i32 = 60;
    w.object();
    match time {
        Time::Clock(minutes) => {
            w.key("clock").text(&format!("{:02}:{:02}", minutes / HOUR, minutes % HOUR));
            w.key("minutes").number(minutes);
        }
        Time::Sun(event, minutes) => {
            w.key("event").text(&event.to_string());
            w.key("minutes").number(minutes);
        }
    }
    w.end_object();
}
