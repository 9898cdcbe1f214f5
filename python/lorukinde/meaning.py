"""What a record's words mean, as types: those of the Rust crate. Decoding never fails: words that no reading writes are `Raw`."""
from __future__ import annotations

import enum
import struct
from dataclasses import dataclass
from typing import Iterator, Optional, Sequence, Tuple, Type, TypeVar, Union


class Manner(enum.Enum):
    """How a text is read: by an edition of the sheet rules, or as a house sheet, which is edition 1 and refuses more."""

    EDITION_1 = 1
    EDITION_2 = 2
    HOUSE = 3


class Separator(enum.Enum):
    """How a rule stands to the ones before it."""

    #: The first rule, or one after `;`: where it applies, it takes the place of those before.
    NORMAL = 0
    #: After `, `: it adds to those before.
    ADDITIONAL = 1
    #: After `||`: it counts where none before applies.
    FALLBACK = 2


class State(enum.Enum):
    OPEN = 0
    CLOSED = 1
    UNKNOWN = 2


class Weekday(enum.IntEnum):
    MONDAY = 1
    TUESDAY = 2
    WEDNESDAY = 3
    THURSDAY = 4
    FRIDAY = 5
    SATURDAY = 6
    SUNDAY = 7


class Month(enum.IntEnum):
    JANUARY = 1
    FEBRUARY = 2
    MARCH = 3
    APRIL = 4
    MAY = 5
    JUNE = 6
    JULY = 7
    AUGUST = 8
    SEPTEMBER = 9
    OCTOBER = 10
    NOVEMBER = 11
    DECEMBER = 12


class Event(enum.Enum):
    """A sun event."""

    DAWN = 1
    SUNRISE = 2
    SUNSET = 3
    DUSK = 4


class HolidayKind(enum.Enum):
    PUBLIC = 1
    SCHOOL = 2


@dataclass(frozen=True)
class Head:
    """A rule's head. The comment's start counts bytes from the sheet's first, inside the quote; no comment is 0, 0."""

    separator: Separator
    state: State
    comment_start: int
    comment_length: int
    items: int


@dataclass(frozen=True)
class Steps:
    """From the first to the last, both among them, in steps."""

    first: int
    last: int
    step: int


@dataclass(frozen=True)
class Years(Steps):
    pass


@dataclass(frozen=True)
class Weeks(Steps):
    pass


@dataclass(frozen=True)
class Months:
    """Months from the first to the last, of a year or of every year. They go round: November to February are four months."""

    year: Optional[int]
    first: Month
    last: Month


@dataclass(frozen=True)
class Fixed:
    month: Month
    day: int


@dataclass(frozen=True)
class Nth:
    """The nth such weekday of a month, counted from its end where n is below 0."""

    month: Month
    weekday: Weekday
    n: int


@dataclass(frozen=True)
class Easter:
    pass


Day = Union[Fixed, Nth, Easter]


@dataclass(frozen=True)
class Next:
    """That weekday, on the day itself or after it."""

    weekday: Weekday


@dataclass(frozen=True)
class Previous:
    """That weekday, on the day itself or before it."""

    weekday: Weekday


ToWeekday = Union[Next, Previous]


@dataclass(frozen=True)
class Date:
    """A date of a year or of every year, and how far the day that is meant is moved from it: first by days, then to a weekday."""

    year: Optional[int]
    day: Day
    to_weekday: Optional[ToWeekday]
    day_offset: int


@dataclass(frozen=True)
class Dates:
    """The days from one date to another. A single date has the same start and end."""

    start: Date
    end: Date


@dataclass(frozen=True)
class Weekdays:
    """Weekdays from the first to the last; they go round. Bit n-1 of the marks is the nth of the month, counted from its start, and from its end."""

    first: Weekday
    last: Weekday
    day_offset: int
    from_start: int
    from_end: int

    @property
    def is_every_week(self) -> bool:
        """Whether all ten marks are set: every such weekday is meant, and not some of a month."""
        return self.from_start == self.from_end == ALL_MARKS


@dataclass(frozen=True)
class Holiday:
    kind: HolidayKind
    day_offset: int


@dataclass(frozen=True)
class Clock:
    """Minutes since midnight, as an end up to 48:00."""

    minutes: int


@dataclass(frozen=True)
class Sun:
    """Minutes after a sun event, before it where they are below 0."""

    event: Event
    minutes: int


Time = Union[Clock, Sun]


@dataclass(frozen=True)
class Span:
    """From a time to a time. With an open end it may last longer. A point in time, which edition 2 knows, ends where it starts."""

    start: Time
    end: Time
    repeat: Optional[int]
    open_end: bool
    is_point: bool


@dataclass(frozen=True)
class Raw:
    """Words that no reading writes."""

    words: Tuple[int, ...]


Meaning = Union[Head, Years, Months, Dates, Weeks, Weekdays, Holiday, Span, Raw]


@dataclass(frozen=True)
class Placed:
    """A meaning, and the byte of the sheet where it stands."""

    place: int
    meaning: Meaning


ALL_MARKS = 0b11111
MIDNIGHT = 1440

E = TypeVar("E", bound=enum.Enum)


class _NoSuchWords(Exception):
    """Words that no reading writes."""


def placed(records: bytes) -> Iterator[Placed]:
    """The records as what they mean."""
    for words in struct.iter_unpack("<16i", records):
        try:
            yield Placed(_at_least(0, words[15]), _meaning(words))
        except _NoSuchWords:
            yield Placed(0, Raw(words))


def _numbered(kind: Type[E], number: int) -> E:
    try:
        return kind(number)
    except ValueError:
        raise _NoSuchWords from None


def _at_least(least: int, word: int) -> int:
    if word < least:
        raise _NoSuchWords
    return word


def _at_most(most: int, word: int) -> int:
    if not 0 <= word <= most:
        raise _NoSuchWords
    return word


def _meaning(w: Sequence[int]) -> Meaning:
    kind = w[0]
    if kind == 1:
        return Head(_numbered(Separator, w[1]), _numbered(State, w[2]), w[3], w[4], w[5])
    if kind == 2:
        return Years(w[1], w[2], w[3])
    if kind == 3:
        return Months(w[1] or None, _numbered(Month, w[2]), _numbered(Month, w[3]))
    if kind == 4:
        return Dates(_date(w[1:8]), _date(w[8:15]))
    if kind == 5:
        return Weeks(w[1], w[2], w[3])
    if kind == 6:
        first, last = _numbered(Weekday, w[1]), _numbered(Weekday, w[2])
        return Weekdays(first, last, w[3], _at_most(ALL_MARKS, w[4]), _at_most(ALL_MARKS, w[5]))
    if kind == 7:
        return Holiday(_numbered(HolidayKind, w[1]), w[2])
    if kind == 8:
        repeat = None if w[5] == -1 else _at_least(0, w[5])
        return Span(_time(w[1], w[2]), _time(w[3], w[4]), repeat, bool(_at_most(1, w[6])), bool(_at_most(1, w[7])))
    raise _NoSuchWords


def _date(w: Sequence[int]) -> Date:
    form, year, month, day, n, to_weekday, day_offset = w
    return Date(year or None, _day(form, month, day, n), _to_weekday(to_weekday), day_offset)


def _day(form: int, month: int, day: int, n: int) -> Day:
    if form == 1:
        return Fixed(_numbered(Month, month), day)
    if form == 2:
        return Nth(_numbered(Month, month), _numbered(Weekday, day), n)
    if form == 3:
        return Easter()
    raise _NoSuchWords


def _to_weekday(word: int) -> Optional[ToWeekday]:
    if word == 0:
        return None
    return Next(_numbered(Weekday, word)) if word > 0 else Previous(_numbered(Weekday, -word))


def _time(kind: int, minutes: int) -> Time:
    if kind == 0:
        return Clock(_at_most(2 * MIDNIGHT, minutes))
    return Sun(_numbered(Event, kind), minutes)
