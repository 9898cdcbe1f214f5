"""Figures over many sheets."""
from __future__ import annotations

import struct
from typing import Dict, Tuple, Union

from . import _library
from ._library import RECORD_BYTES, Room, lent
from .feed import Feed, Line
from .reading import Part, Reading, Refusal, Sheet, accept

COUNTS = 34
TALLY_BYTES = 4 * COUNTS
KINDS = ("years", "months", "dates", "weeks", "weekdays", "holidays", "times")  # kinds 2 to 8 of records
READ, WARNINGS, FIRST_KIND, MARKS = 24, 25, 26, 33


class Tally:
    """How many sheets or parts were read, accepted, refused by each number, with how many items by kind, warnings and marks.

    `add` takes in an answer, `+` and `sum()` add tallies up; in which order and grouping never matters. A count that would pass 4,294,967,295 is `Refused`, and changes
    nothing."""

    def __init__(self, counts: bytes = bytes(TALLY_BYTES)) -> None:
        self._room = Room(TALLY_BYTES, counts)

    def add(self, read: Union[Reading, Refusal, Part, Line, Sheet, Feed]) -> None:
        """Takes in a reading or a refusal, those of all parts of a sheet, or those of all lines of a feed."""
        if isinstance(read, Feed):
            accept(_library.tally_feed(*self._room.lent(), *lent(read.answers), *lent(read.records)))
        elif isinstance(read, Sheet):
            after = self + Tally()
            for part in read.parts:
                after.add(part)
            self._room = after._room
        elif isinstance(read, (Part, Line)):
            self.add(read.reading)
        elif isinstance(read, Reading):
            self._add(0, 0, read.records, read.warnings)
        else:
            self._add(read.number, read.place, b"", 0)

    def _add(self, number: int, place: int, records: bytes, warnings: int) -> None:
        accept(_library.tally_add(*self._room.lent(), number, place, len(records) // RECORD_BYTES, warnings, *lent(records)))

    def __add__(self, other: Tally) -> Tally:
        if not isinstance(other, Tally):
            return NotImplemented
        joined = Tally(self.counts)
        accept(_library.tally_join(*joined._room.lent(), *lent(other.counts)))
        return joined

    def __radd__(self, zero: int) -> Tally:
        """`sum()` begins with 0."""
        if zero != 0:
            return NotImplemented
        return Tally(self.counts)

    @property
    def counts(self) -> bytes:
        """The 34 counts of 32 bits, as include/lorukinde.h says."""
        return bytes(self._room.bytes)

    def _count(self, word: int) -> int:
        count: int = struct.unpack_from("<I", self._room.bytes, 4 * word)[0]
        return count

    @property
    def read(self) -> int:
        return self._count(READ)

    @property
    def accepted(self) -> int:
        return self._count(0)

    @property
    def refused(self) -> Dict[int, int]:
        """How many were refused by each number, where some were."""
        return {number: self._count(number) for number in range(1, READ) if self._count(number)}

    @property
    def items(self) -> Dict[str, int]:
        """How many items of each kind."""
        return {kind: self._count(FIRST_KIND + i) for i, kind in enumerate(KINDS)}

    @property
    def warnings(self) -> int:
        return self._count(WARNINGS)

    @property
    def marks(self) -> int:
        return self._count(MARKS)

    def __eq__(self, other: object) -> bool:
        return isinstance(other, Tally) and self.counts == other.counts

    def __reduce__(self) -> Tuple[object, ...]:
        return Tally, (self.counts,)

    def __repr__(self) -> str:
        return f"<Tally: {self.read} read, {self.accepted} accepted, refused {self.refused}, items {self.items}, {self.warnings} warnings, {self.marks} marks>"
