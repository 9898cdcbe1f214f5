"""Days as tables of pandas, without a loop over days or sheets."""
from __future__ import annotations

from typing import TYPE_CHECKING, Any, List, Tuple

import numpy
import pandas

if TYPE_CHECKING:
    from ._days import Days

STATES = ["open", "closed", "unknown", "refused"]
ANSWERS = ["no", "yes", "undecided", "refused"]
REFUSED = 3
UNDECIDED = 2

Array = Any


class Units:
    """The rules and the refused parts, in their order: a number of each for every column."""

    def __init__(self, days: Days) -> None:
        parts = numpy.frombuffer(days.many.parts, dtype="<u4").reshape(-1, 7)
        records = numpy.frombuffer(days.many.records, dtype="<i4").reshape(-1, 16)
        heads = numpy.flatnonzero(records[:, 0] == 1)
        part_of_head = numpy.searchsorted(numpy.cumsum(parts[:, 2]), heads, side="right")
        rules = numpy.bincount(part_of_head, minlength=len(parts))
        per_part = numpy.maximum(rules, 1)
        part = numpy.repeat(numpy.arange(len(parts)), per_part)
        self.is_rule = parts[part, 0] == 0
        self.sheet = parts[part, 4]
        first_part = numpy.searchsorted(parts[:, 4], self.sheet)
        self.part = part - first_part
        self.rule = numpy.arange(len(part)) - numpy.repeat(numpy.cumsum(per_part) - per_part, per_part)
        self.state = numpy.full(len(part), REFUSED)
        self.state[self.is_rule] = records[heads, 2]
        self.rows = numpy.where(self.is_rule, days.day_count, 1)


def _columns(lines: List[Tuple[str, str, str]]) -> Tuple[Tuple[str, ...], ...]:
    return tuple(zip(*lines)) or ((), (), ())


def _repeated(texts: Tuple[str, ...], rows: Array, kept: Array = True) -> pandas.Categorical:
    """A text for each unit, as a column with so many rows of each; in rows that are not kept it is empty."""
    of_units = pandas.Categorical([*texts, ""])
    codes = numpy.where(kept, numpy.repeat(of_units.codes[:-1], rows), of_units.codes[-1])
    return pandas.Categorical.from_codes(codes, dtype=of_units.dtype)


def long_table(days: Days) -> pandas.DataFrame:
    units = Units(days)
    rows, is_rule = units.rows, numpy.repeat(units.is_rule, units.rows)
    answer = numpy.full(int(rows.sum()), REFUSED, dtype="i1")
    answer[is_rule] = days.numpy().ravel()
    dates = numpy.full(len(answer), numpy.datetime64("NaT"), dtype="datetime64[ns]")
    every = numpy.datetime64(days.start, "D") + numpy.arange(days.day_count)
    dates[is_rule] = numpy.tile(every.astype("datetime64[ns]"), int(units.is_rule.sum()))
    says, notes, whys = _columns(days._lines)
    return pandas.DataFrame(
        {
            "sheet": numpy.repeat(units.sheet, rows),
            "part": numpy.repeat(units.part, rows),
            "rule": numpy.repeat(units.rule, rows),
            "state": pandas.Categorical.from_codes(numpy.repeat(units.state, rows), categories=STATES),
            "date": dates,
            "answer": pandas.Categorical.from_codes(answer, categories=ANSWERS),
            "says": _repeated(says, rows),
            "note": _repeated(notes, rows),
            "why": _repeated(whys, rows, answer == UNDECIDED),
        },
        copy=False,
    )


def wide_table(days: Days) -> pandas.DataFrame:
    units = Units(days)
    answers = numpy.full((days.day_count, len(units.rule)), REFUSED)
    answers[:, units.is_rule] = days.numpy().T
    columns = pandas.MultiIndex.from_arrays([units.sheet, units.part, units.rule], names=["sheet", "part", "rule"])
    index = pandas.date_range(days.start, days.end, name="date")
    return pandas.DataFrame(numpy.array(ANSWERS, dtype=object)[answers], index=index, columns=columns)
