"""Tallies, texts and months."""
import pickle
import random

import pytest

import lorukinde
from lorukinde import Month, Refused, Tally, Weekdays
from sheets import listed

FEED = lorukinde.read_feed(b"\n".join(listed()))


def tally_of(read):
    tally = Tally()
    tally.add(read)
    return tally


def test_a_feed_is_counted():
    """Beside counts that are made of the values."""
    tally = tally_of(FEED)
    readings = [line.reading for line in FEED if isinstance(line.reading, lorukinde.Reading)]
    refusals = [line.reading.number for line in FEED if isinstance(line.reading, lorukinde.Refusal)]
    meanings = [item.meaning for reading in readings for rule in reading.rules for item in rule.items]
    assert (tally.read, tally.accepted) == (len(FEED), len(readings))
    assert tally.refused == {number: refusals.count(number) for number in set(refusals)}
    names = {"years": "Years", "months": "Months", "dates": "Dates", "weeks": "Weeks", "weekdays": "Weekdays", "holidays": "Holiday", "times": "Span"}
    assert tally.items == {kind: sum(type(meaning).__name__ == name for meaning in meanings) for kind, name in names.items()}
    assert tally.warnings == sum(reading.warnings for reading in readings)
    assert tally.marks == sum(bin(meaning.from_start).count("1") + bin(meaning.from_end).count("1") for meaning in meanings if isinstance(meaning, Weekdays))


def test_order_and_grouping_never_matter():
    whole = tally_of(FEED)
    parts = [tally_of(line) for line in FEED]
    assert sum(parts) == whole
    random.Random(7).shuffle(parts)
    assert sum(parts[:100]) + (sum(parts[100:]) + Tally()) == whole
    assert Tally() + whole == whole + Tally() == whole == pickle.loads(pickle.dumps(whole))


def test_a_count_that_passes_is_refused():
    full = Tally(b"\xff" * 136)
    with pytest.raises(Refused) as refused:
        full + tally_of(lorukinde.read("Mo"))
    assert refused.value.number == 15
    for read in (lorukinde.read("Mo; Tu"), lorukinde.read_feed("Mo\nTu")):
        with pytest.raises(Refused):
            full.add(read)
    assert full == Tally(b"\xff" * 136)


def test_months():
    winter, always = lorukinde.months(lorukinde.read("Nov-Feb off; Mo"))
    assert (winter.head, always.head) == (0, 2)
    assert winter.months == (Month.JANUARY, Month.FEBRUARY, Month.NOVEMBER, Month.DECEMBER)
    assert always.months == tuple(Month)
    # As the readings say (15.7): bits 7 and 24.
    assert lorukinde.months(lorukinde.read("Jan 31-30"))[0].months == (Month.JANUARY, Month.FEBRUARY, Month.MARCH)
    assert lorukinde.months(lorukinde.read("Apr 5-31"))[0].months == (Month.APRIL, Month.MAY)
