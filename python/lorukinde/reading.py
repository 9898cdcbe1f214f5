"""A sheet read part by part: a slip loses its part and no other."""
from __future__ import annotations

import struct
from dataclasses import dataclass, field
from functools import cached_property
from typing import Iterator, Optional, Tuple, Union

from . import _library
from ._library import RECORD_BYTES, Bytes, lent, sentence, sizes, stored
from ._many import read_many
from .meaning import Head, Manner, Placed, State, placed

EDITION_1 = Manner.EDITION_1
EDITION_2 = Manner.EDITION_2
HOUSE = Manner.HOUSE

Text = Union[str, Bytes]


def as_bytes(text: Text) -> bytes:
    """A text in UTF-8. Half a letter (a surrogate) has no UTF-8; it becomes bytes that a reading refuses."""
    return text.encode("utf-8", "surrogatepass") if isinstance(text, str) else bytes(text)


@dataclass(frozen=True)
class Rule:
    """A rule: where it begins in the sheet, its head, its items. One without items applies always. `str()` says it in plain words."""

    place: int
    head: Head
    items: Tuple[Placed, ...]
    comment: Optional[str]
    sheet: bytes = field(repr=False)
    records: bytes = field(repr=False)

    @property
    def state(self) -> State:
        return self.head.state

    def note(self, standing: str) -> str:
        """The note to be shown: the comment, or the standing note where the rule has none."""
        return standing if self.comment is None else self.comment

    def __str__(self) -> str:
        return sentence(_library.say_rules, *lent(self.sheet), *lent(self.records))


@dataclass(frozen=True)
class Reading:
    """What an accepted sheet or part says. The records are 64 bytes each, as include/lorukinde.h says."""

    sheet: bytes
    records: bytes = field(repr=False)
    warnings: int

    @cached_property
    def rules(self) -> Tuple[Rule, ...]:
        """The rules in the order of the sheet."""
        return tuple(_rules(self.sheet, self.records))

    def __str__(self) -> str:
        return sentence(_library.say_rules, *lent(self.sheet), *lent(self.records))


def _rules(sheet: bytes, records: bytes) -> Iterator[Rule]:
    table = tuple(placed(records))
    first = 0
    while first < len(table):
        head = table[first].meaning
        if not isinstance(head, Head):  # in a reading a head always stands here, and its items after it
            return
        end = min(first + 1 + max(head.items, 0), len(table))
        rule_records = records[first * RECORD_BYTES : end * RECORD_BYTES]
        yield Rule(table[first].place, head, table[first + 1 : end], _comment(sheet, head), sheet, rule_records)
        first = end


def _comment(sheet: bytes, head: Head) -> Optional[str]:
    if head.comment_length == 0:
        return None
    bounds = sizes(2)
    of_sheet = _library.note(len(sheet), 0, head.comment_start, head.comment_length, *stored(bounds))
    comment = sheet[bounds[0].value : bounds[1].value] if of_sheet else b""
    return comment.decode("utf-8", "replace")


@dataclass(frozen=True)
class Refusal:
    """Why a part is refused: its number (docs/RULES.md, 6), and its place, a byte of the sheet; the line and, in it, the character that stands there, both from 1.
    `str()` says what is wrong and what to write instead."""

    number: int
    place: int
    line: int
    column: int
    sheet: bytes = field(repr=False)
    part: range = field(repr=False)
    manner: Manner = field(repr=False)

    def __str__(self) -> str:
        part = (self.part.start, self.part.stop)
        return sentence(_library.say_refusal, self.manner.value, *lent(self.sheet), *part, self.number, self.place)


def refusal(number: int, place: int, sheet: bytes, part: range, manner: Manner) -> Refusal:
    position = sizes(2)
    _library.position(*lent(sheet), place, *stored(position))
    return Refusal(number, place, position[0].value, position[1].value, sheet, part, manner)


class Refused(ValueError):
    """A call that was refused, with its number: no part of a sheet, but what was asked for."""

    def __init__(self, number: int) -> None:
        # A part that the place is not in: so the sentence is one without a sheet.
        super().__init__(sentence(_library.say_refusal, EDITION_1.value, *lent(b""), 1, 0, number, 0))
        self.number = number


def accept(number: int) -> None:
    """Goes on where a call has answered 0."""
    if number != 0:
        raise Refused(number)


@dataclass(frozen=True)
class Part:
    """A part of a sheet: its bytes, without the `;` after it, and what it says or why it is refused."""

    range: range
    reading: Union[Reading, Refusal]

    @property
    def is_accepted(self) -> bool:
        return isinstance(self.reading, Reading)


@dataclass(frozen=True)
class Sheet:
    """A sheet that was read part by part."""

    text: bytes
    manner: Manner
    parts: Tuple[Part, ...]

    @property
    def rules(self) -> Tuple[Rule, ...]:
        """The rules of all parts that are accepted."""
        return tuple(rule for part in self.parts if isinstance(part.reading, Reading) for rule in part.reading.rules)

    @property
    def records(self) -> bytes:
        """The records of all parts that are accepted."""
        return b"".join(part.reading.records for part in self.parts if isinstance(part.reading, Reading))

    @property
    def refusals(self) -> Tuple[Refusal, ...]:
        """Those of the parts that are refused."""
        return tuple(part.reading for part in self.parts if isinstance(part.reading, Refusal))

    def __str__(self) -> str:
        return "\n".join(str(part.reading) for part in self.parts)


def read(sheet: Text, manner: Manner = EDITION_1) -> Sheet:
    """Reads each part of a sheet. A refused part is a value, a `Refusal`."""
    text = as_bytes(sheet)
    many = read_many([text], manner)
    return Sheet(text, manner, tuple(_parts(text, manner, struct.iter_unpack("<7I", many.parts), many.records)))


def _parts(text: bytes, manner: Manner, answers: Iterator[Tuple[int, ...]], records: bytes) -> Iterator[Part]:
    first = 0
    for number, place, count, warnings, _, begin, end in answers:
        part = range(begin, end)
        after = first + count * RECORD_BYTES
        if number == 0:
            yield Part(part, Reading(text, records[first:after], warnings))
        else:
            yield Part(part, refusal(number, place, text, part, manner))
        first = after
