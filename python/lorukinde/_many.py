"""Many sheets read part by part, without a loop over them here."""
from __future__ import annotations

import ctypes
from array import array
from dataclasses import dataclass
from itertools import accumulate
from typing import List, Tuple

from . import _library
from ._library import PART_BYTES, RECORD_BYTES, SHEET_BYTES, Room, sizes, stored
from .meaning import Manner

# How many records and parts a call has room for, so that any number of sheets takes tables of one size.
MOST_RECORDS = 1 << 16


@dataclass(frozen=True, eq=False)
class Many:
    """Sheets one after the other, where each ends, and their parts and records, as include/lorukinde.h says."""

    text: bytes
    ends: array[int]
    parts: bytes
    records: bytes

    @property
    def rule_count(self) -> int:
        return self.records[::RECORD_BYTES].count(1)  # the kind of a head

    def sheets(self) -> Tuple[object, object, int]:
        """The sheets as the calls are lent them."""
        return self.text, (ctypes.c_size_t * len(self.ends)).from_buffer(self.ends), len(self.ends)


def read_many(sheets: List[bytes], manner: Manner) -> Many:
    text, ends = b"".join(sheets), array("Q", accumulate(map(len, sheets)))
    # A sheet has at most as many records as bytes, and at most one part more; one that is too long has one part and no record.
    room = min(len(text), MOST_RECORDS) + SHEET_BYTES if len(sheets) > 1 else min(len(text), SHEET_BYTES)
    parts, table = Room((room + 1) * PART_BYTES), Room(room * RECORD_BYTES)
    read = Many(text, ends, b"", b"")
    all_parts, all_records = [], []
    counts, first = sizes(3), 0
    while first < len(sheets):
        _library.read_parts(manner.value, *read.sheets(), first, *parts.lent(), *table.lent(), *stored(counts))
        first, part_count, records = (count.value for count in counts)
        all_parts.append(parts.used(part_count * PART_BYTES))
        all_records.append(table.used(records * RECORD_BYTES))
    return Many(text, ends, b"".join(all_parts), b"".join(all_records))
