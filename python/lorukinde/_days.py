"""Which days each rule touches."""
from __future__ import annotations

import datetime
import enum
import struct
from array import array
from dataclasses import dataclass, field
from functools import cached_property
from itertools import chain
from operator import attrgetter, methodcaller
from typing import TYPE_CHECKING, Any, Iterable, Iterator, List, Tuple, Union

from . import _library
from ._library import PART_BYTES, RECORD_BYTES, Room, lent, sentence
from ._many import Many, read_many
from .meaning import Manner
from .reading import EDITION_1, Text, accept, as_bytes

if TYPE_CHECKING:
    import numpy
    import pandas

DAY_BYTES = 12  # year, month, day
ANSWER_BYTES = 4

DateOrText = Union[datetime.date, str]


class Touch(enum.IntEnum):
    """Whether a rule's days touch a day. Undecided are those that hang on holidays, Easter, offsets and marks, which nobody has worked out here."""

    NO = 0
    YES = 1
    UNDECIDED = 2


@dataclass(frozen=True, eq=False)
class Days:
    """Every rule of sheets over every day from a first to a last: `numpy()` is an array, `pandas()` a table, iterating gives a `Row` for each rule and day."""

    start: datetime.date
    end: datetime.date
    manner: Manner = field(repr=False)
    many: Many = field(repr=False)
    words: bytes = field(repr=False)
    answers: Room = field(repr=False)

    @property
    def day_count(self) -> int:
        return (self.end - self.start).days + 1

    @cached_property
    def _lines(self) -> List[Tuple[str, str, str]]:
        """Of each rule, and of each part that is refused: what it says, its note, why it is undecided."""
        many, likely = self.many, 256 * (len(self.many.parts) // PART_BYTES + self.many.rule_count)
        tables = (*lent(many.parts), *lent(many.records), *lent(self.words), *self.answers.lent())
        lines = sentence(_library.say_parts, self.manner.value, *many.sheets(), *tables, likely=likely)
        return list(map(methodcaller("split", "\t"), lines.split("\n")[:-1]))

    def numpy(self) -> numpy.ndarray[Any, Any]:
        """A row for each rule and a column for each day: 0 no, 1 yes, 2 undecided."""
        import numpy

        answers = numpy.frombuffer(self.answers.bytes, dtype="<i4", count=self.answers.length // ANSWER_BYTES)
        answers.flags.writeable = False
        return answers.reshape(-1, self.day_count)

    def pandas(self, wide: bool = False) -> pandas.DataFrame:
        """A row for each sheet, rule and day, and one for each part that is refused; or, wide, a row for each day and a column for each rule and each such part."""
        from ._tables import long_table, wide_table

        return wide_table(self) if wide else long_table(self)

    def __iter__(self) -> Iterator[Row]:
        answers = struct.iter_unpack("<i", self.answers.used(self.answers.length))
        lines = iter(self._lines)
        for sheet, part, rule, is_refused in _units(self.many):
            says, note, why = next(lines)
            if is_refused:
                yield Row(sheet, part, rule, says, note, None, None, "")
                continue
            for day in range(self.day_count):
                touch = Touch(next(answers)[0])
                yield Row(sheet, part, rule, says, note, self.start + datetime.timedelta(day), touch, why if touch is Touch.UNDECIDED else "")


@dataclass(frozen=True)
class Row:
    """A rule and a day; a part that is refused has neither date nor answer, and says what is wrong."""

    sheet: int
    part: int
    rule: int
    says: str
    note: str
    date: Union[datetime.date, None]
    answer: Union[Touch, None]
    why: str


def _units(many: Many) -> Iterator[Tuple[int, int, int, bool]]:
    """Each rule and each refused part: its sheet, its part in that, its rule in that, and whether it is refused."""
    kinds = many.records[::RECORD_BYTES]
    first, before, part = 0, -1, 0
    for number, _, count, _, sheet, _, _ in struct.iter_unpack("<7I", many.parts):
        part = part + 1 if sheet == before else 0
        before = sheet
        rules = kinds[first : first + count].count(1)
        first += count
        yield from ((sheet, part, rule, number != 0) for rule in range(rules or 1))


def days(sheets: Union[Text, Iterable[Text], Any], start: DateOrText, end: DateOrText, manner: Manner = EDITION_1) -> Days:
    """Which of the days from the start to the end, both among them, each rule touches. The sheets are a list of texts, or a feed or an open file with one a line."""
    first, last = _date(start), _date(end)
    if last < first:
        raise ValueError("the last day is before the first")
    many = read_many(_sheets(sheets), manner)
    every = map(datetime.date.fromordinal, range(first.toordinal(), last.toordinal() + 1))
    words = array("i", chain.from_iterable(map(attrgetter("year", "month", "day"), every))).tobytes()
    room = Room(many.rule_count * (len(words) // DAY_BYTES) * ANSWER_BYTES)
    accept(_library.parts_days(*lent(many.parts), *lent(many.records), *lent(words), *room.lent()))
    return Days(first, last, manner, many, words, room)


def _date(day: DateOrText) -> datetime.date:
    return datetime.date.fromisoformat(day) if isinstance(day, str) else datetime.date(day.year, day.month, day.day)


def _sheets(sheets: Union[Text, Iterable[Text], Any]) -> List[bytes]:
    if hasattr(sheets, "read"):
        sheets = sheets.read()
    if isinstance(sheets, (str, bytes, bytearray, memoryview)):
        lines = as_bytes(sheets).replace(b"\r\n", b"\n").split(b"\n")
        return lines if lines[-1] else lines[:-1]
    return list(map(as_bytes, sheets))
