"""The months that the rules of a reading can touch."""
from __future__ import annotations

import struct
from dataclasses import dataclass
from typing import Tuple, Union

from . import _library
from ._library import RECORD_BYTES, Room, lent
from .meaning import Month
from .reading import Reading, Sheet, accept

ENTRY_BYTES = 8


@dataclass(frozen=True)
class RuleMonths:
    """A rule, by the number of its head in the records, and the months that it can touch in any year."""

    head: int
    months: Tuple[Month, ...]


def months(reading: Union[Reading, Sheet]) -> Tuple[RuleMonths, ...]:
    """Which months each rule can touch."""
    table = reading.records
    room = Room(table[::RECORD_BYTES].count(1) * ENTRY_BYTES)
    accept(_library.rule_months(*lent(table), *room.lent()))
    entries = struct.iter_unpack("<2I", room.used(room.length))
    return tuple(RuleMonths(head, tuple(month for month in Month if mask >> (month - 1) & 1)) for head, mask in entries)
