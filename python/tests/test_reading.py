"""What a reader of the package sees."""
import dataclasses
import subprocess
import sys

import pytest
from hypothesis import given
from hypothesis import strategies as st

import lorukinde
from lorukinde import EDITION_1, EDITION_2, HOUSE, Clock, Manner, Reading, Refusal, State, Weekday


def test_parts():
    sheet = lorukinde.read('Mo-Fr 09:00-18:00; 2020 Dec 25-5x off; Sa 10:00-16:00 "by bell"')
    assert [part.is_accepted for part in sheet.parts] == [True, False, True]
    assert [part.range for part in sheet.parts] == [range(0, 17), range(18, 37), range(38, 63)]
    assert [str(rule) for rule in sheet.rules] == ["open: Monday to Friday, 09:00 to 18:00", 'open: Saturday, 10:00 to 16:00, note "by bell"']
    (refusal,) = sheet.refusals
    assert (refusal.number, refusal.place, refusal.line, refusal.column) == (3, 32, 1, 33)
    assert str(refusal).startswith("`x` does not fit here: expected ")
    weekdays, span = (item.meaning for item in sheet.rules[0].items)
    assert (weekdays.first, weekdays.last, weekdays.is_every_week) == (Weekday.MONDAY, Weekday.FRIDAY, True)
    assert (span.start, span.end) == (Clock(540), Clock(1080))
    assert sheet.rules[0].state is State.OPEN
    assert [rule.note("call us") for rule in sheet.rules] == ["call us", "by bell"]


def test_manners():
    assert isinstance(lorukinde.read("10:00", EDITION_1).parts[0].reading, Refusal)
    assert isinstance(lorukinde.read("10:00", EDITION_2).parts[0].reading, Reading)
    assert [refusal.number for refusal in lorukinde.read("10:00+", HOUSE).refusals] == [22]


def test_text_and_bytes_are_alike():
    text = 'Mo "Käse"; x'
    for other in (text.encode(), bytearray(text.encode()), memoryview(text.encode())):
        assert lorukinde.read(text) == lorukinde.read(other)
    assert lorukinde.read('"\ud800"').refusals[0].number == 13  # half a letter


def test_values_are_frozen():
    sheet = lorukinde.read("Mo; x")
    for value in (sheet, *sheet.parts, *(part.reading for part in sheet.parts), sheet.rules[0], sheet.rules[0].head, *sheet.rules[0].items):
        with pytest.raises(dataclasses.FrozenInstanceError):
            value.place = 1
        assert hash(value) == hash(value)


@given(st.sampled_from(list(Manner)), st.integers(0, 2**32 - 1), st.integers(0, 2**64 - 1), st.binary(max_size=20), st.integers(0, 30), st.integers(0, 30))
def test_any_numbers_have_a_sentence(manner, number, place, sheet, begin, end):
    for refusal_number in (number, number % 24):
        for refusal_place in (place, place % 20):
            assert str(Refusal(refusal_number, refusal_place, 1, 1, sheet, range(begin, end), manner))


@given(st.binary(max_size=200), st.binary(max_size=20))
def test_any_records_have_words(records, sheet):
    heads = b"".join(bytes([1 + i % 8]) + bytes(3) + records[i * 12 : i * 12 + 12].ljust(60, b"\0") for i in range(3))
    for table in (records, heads, heads + records):
        reading = Reading(sheet, table[: len(table) // 64 * 64], 0)
        assert len(str(reading).split("\n")) == max(len(reading.rules), 1)


def test_nothing_else_is_imported():
    run = subprocess.run(
        [sys.executable, "-c", "import sys, lorukinde; print([name for name in ('numpy', 'pandas', 'dask') if name in sys.modules])"], capture_output=True, check=True
    )
    assert run.stdout == b"[]\n"
