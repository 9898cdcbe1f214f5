"""Many sheets at once, one a line, by the proved call for feeds."""
from __future__ import annotations

import struct
from dataclasses import dataclass
from typing import Iterator, List, Tuple, Union

from . import _library
from ._library import ANSWER_BYTES, RECORD_BYTES, SHEET_BYTES, Bytes, Room, lent, sizes, stored
from .reading import EDITION_1, Reading, Refusal, Text, as_bytes, refusal

# How many bytes of a feed are handed over at once, so that a feed of any length takes a table of one size.
BLOCK_BYTES = 1 << 16


@dataclass(frozen=True)
class Line:
    """A line of a feed: its bytes, without its byte 10, and what it says or why it is refused. Places count from the line's first byte."""

    range: range
    reading: Union[Reading, Refusal]


@dataclass(frozen=True)
class Feed:
    """A feed that was read. The answers are 16 bytes a line, the records 64 bytes each, those of all accepted lines one after the other, as include/lorukinde.h says;
    iterating gives each line as a `Line`."""

    feed: bytes
    answers: bytes
    records: bytes

    def __len__(self) -> int:
        return len(self.answers) // ANSWER_BYTES

    def __iter__(self) -> Iterator[Line]:
        begin = first = 0
        for number, place, count, warnings in struct.iter_unpack("<4I", self.answers):
            newline = self.feed.find(b"\n", begin)
            end = len(self.feed) if newline < 0 else newline
            sheet, after = self.feed[begin:end], first + count * RECORD_BYTES
            yield Line(range(begin, end), _outcome(sheet, number, place, self.records[first:after], warnings))
            begin, first = end + 1, after


def _outcome(sheet: bytes, number: int, place: int, records: bytes, warnings: int) -> Union[Reading, Refusal]:
    if number == 0:
        return Reading(sheet, records, warnings)
    return refusal(number, place, sheet, range(0, len(sheet)), EDITION_1)


def read_feed(feed: Text) -> Feed:
    """Reads many sheets, one a line, each as a whole: a line with a slip is refused. Byte 10 parts lines; a final one starts none."""
    text = as_bytes(feed)
    # There are at most as many records as bytes, and a line too long for a sheet has none.
    table = Room(min(len(text), BLOCK_BYTES + SHEET_BYTES) * RECORD_BYTES)
    answers: List[bytes] = []
    records: List[bytes] = []
    for begin, end in _blocks(text):
        block_answers, block_records = _read_block(text[begin:end], table)
        answers.append(block_answers)
        records.append(block_records)
    return Feed(text, b"".join(answers), b"".join(records))


def _blocks(text: bytes) -> Iterator[Tuple[int, int]]:
    """From where to where each block of whole lines goes."""
    begin = 0
    while begin < len(text):
        newline = text.find(b"\n", begin + BLOCK_BYTES - 1)
        end = len(text) if newline < 0 else newline + 1
        yield begin, end
        begin = end


def _read_block(block: bytes, table: Room) -> Tuple[bytes, bytes]:
    line_count = block.count(b"\n") + (not block.endswith(b"\n"))
    answers = Room(line_count * ANSWER_BYTES)
    counts = sizes(2)
    _library.read_feed(*lent(block), *answers.lent(), *table.lent(), *stored(counts))
    return answers.used(answers.length), table.used(counts[1].value * RECORD_BYTES)
