"""Rules over days."""
import datetime

import pytest
from hypothesis import given
from hypothesis import strategies as st

import lorukinde
from lorukinde import EDITION_2, Refused, Touch

# Of the readings that decide where the request's words leave room (Ask 10).
DECIDED = [
    ("Jan,Mar 5", "2024-01-10", 1),
    ("Jan,Mar 5", "2024-03-05", 1),
    ("Jan,easter", "2024-01-10", 1),
    ("Jan,easter", "2024-02-10", 2),
    ("2024 Dec-Feb", "2024-07-01", 2),
    ("2024 Dec-Feb", "1950-07-01", 2),
    ("Mo[1]", "2024-01-02", 2),
    ("Mo[1-5]", "2024-01-02", 2),
    ("Jan 5 +1 day", "2024-07-01", 2),
    ("Jan 5 +0 days", "2024-01-05", 1),
    ("Mo,PH", "2024-01-01", 1),
    ("Mo,PH", "2024-01-02", 2),
    ("easter Mo", "2024-01-02", 0),
    ("week 53", "2021-01-01", 1),
    ("2020 week 53", "2021-01-01", 0),
    ("week 1", "2019-12-30", 1),
    ("Feb 28-Feb 30", "2024-03-01", 0),
    ("9999 Dec 31-1", "9999-12-31", 1),
    ("Jan 10-Jan 9", "2024-07-01", 1),
    ("2024 Jan 10-2024 Jan 5", "2024-01-10", 0),
    ("2024 Jan 5-Jan 10", "2024-01-07", 2),
    ("off", "2024-01-01", 1),
    ("10:00-12:00", "2024-01-01", 1),
    ("Jan 31-30", "2024-03-15", 1),
]


def answers(sheet, start, end, manner=lorukinde.EDITION_1):
    return [row.answer for row in lorukinde.days([sheet], start, end, manner)]


def test_decided_cases():
    for sheet, day, answer in DECIDED:
        assert answers(sheet, day, day) == [Touch(answer)], sheet
    for sheet, answer in (("10:00", 1), ("Mo +1 day", 2), ("Mo-Fr[3-1]", 1)):
        assert answers(sheet, "2024-01-01", "2024-01-01", EDITION_2) == [Touch(answer)], sheet


NAMES = ("Mo", "Tu", "We", "Th", "Fr", "Sa", "Su")
MONTHS = ("Jan", "Feb", "Mar", "Apr", "May", "Jun", "Jul", "Aug", "Sep", "Oct", "Nov", "Dec")


def between(first, value, last):
    """Whether it lies between them, going round."""
    return first <= value <= last if first <= last else value >= first or value <= last


@given(st.dates(datetime.date(1900, 1, 1), datetime.date(9990, 1, 1)), st.integers(0, 40), *[st.integers(0, 6)] * 2, *[st.integers(0, 11)] * 2, *[st.integers(1, 31)] * 2)
def test_beside_datetime(start, count, weekday, to_weekday, month, to_month, day, to_day):
    every = [start + datetime.timedelta(i) for i in range(count + 1)]
    week, to_week = sorted((day, to_day))
    cases = {
        f"{NAMES[weekday]}-{NAMES[to_weekday]}": lambda date: between(weekday, date.weekday(), to_weekday),
        f"{MONTHS[month]}-{MONTHS[to_month]}": lambda date: between(month + 1, date.month, to_month + 1),
        f"{MONTHS[month]} {day}-{MONTHS[to_month]} {to_day}": lambda date: between((month + 1, day), (date.month, date.day), (to_month + 1, to_day)),
        f"week {week}-{to_week}": lambda date: week <= date.isocalendar()[1] <= to_week,
        f"{start.year}-{start.year + 1}": lambda date: start.year <= date.year <= start.year + 1,
        f"{start.year} {MONTHS[month]} {NAMES[weekday]}": lambda date: (date.year, date.month, date.weekday()) == (start.year, month + 1, weekday),
    }
    rows = iter(lorukinde.days(list(cases), every[0], every[-1]))
    for sheet, is_touched in cases.items():
        for date in every:
            row = next(rows)
            assert (row.date, row.answer) == (date, Touch(is_touched(date))), sheet


SHEETS = ["2020 Dec 25-05 off", "Mo-Fr 09:00-18:00; PH off; 9-17", 'Jan Mo[1] off "pool", easter +1 day || unknown']


def test_why_and_refused_parts():
    rows = list(lorukinde.days(SHEETS, "2021-01-01", "2021-01-06"))
    assert {row.why for row in rows if row.says.startswith("closed: public holidays")} == {"public holidays"}
    assert {row.why for row in rows if row.sheet == 0} == {""}
    (refused,) = (row for row in rows if row.answer is None)
    assert (refused.sheet, refused.part, refused.rule, refused.date) == (1, 2, 0, None)
    assert "write `09:00-17:00`, not `9-17`" in refused.says


def test_a_feed_and_a_file_are_lists_of_sheets(tmp_path):
    wanted = list(lorukinde.days(SHEETS, "2021-01-01", "2021-01-02"))
    feed = "\r\n".join([*SHEETS, ""])
    (tmp_path / "feed").write_bytes(feed.encode())
    assert list(lorukinde.days(feed, "2021-01-01", "2021-01-02")) == wanted
    with open(tmp_path / "feed", "rb") as file:
        assert list(lorukinde.days(file, datetime.date(2021, 1, 1), datetime.datetime(2021, 1, 2, 12))) == wanted
    assert list(lorukinde.days([], "2021-01-01", "2021-01-02")) == []


def test_impossible_days():
    with pytest.raises(Refused) as refused:
        lorukinde.days(["Mo"], "1899-12-31", "1900-01-01")
    assert refused.value.number == 20
    with pytest.raises(ValueError):
        lorukinde.days(["Mo"], "2021-01-02", "2021-01-01")


def test_numpy():
    array = lorukinde.days(SHEETS, "2021-01-01", "2021-01-06").numpy()
    rows = [row for row in lorukinde.days(SHEETS, "2021-01-01", "2021-01-06") if row.answer is not None]
    assert array.shape == (6, 6)
    assert array.ravel().tolist() == [row.answer for row in rows]
    assert lorukinde.days(["x"], "2021-01-01", "2021-01-06").numpy().shape == (0, 6)


def test_pandas():
    days = lorukinde.days(SHEETS * 3, "2021-01-01", "2021-01-06")
    table, rows = days.pandas(), list(days)
    for name in ("sheet", "part", "rule", "says", "note", "why"):
        assert table[name].tolist() == [getattr(row, name) for row in rows], name
    assert table.answer.tolist() == ["refused" if row.answer is None else row.answer.name.lower() for row in rows]
    assert [None if date is None else datetime.date.isoformat(date) for date in (row.date for row in rows)] == [
        None if day != day else day.date().isoformat() for day in table.date
    ]
    assert set(table[table.says.str.startswith("closed")].state) == {"closed"}
    wide = days.pandas(wide=True)
    assert wide.shape == (6, 21)
    assert wide[0, 0, 0].tolist() == ["yes"] * 5 + ["no"]
    assert set(wide[1, 2, 0]) == {"refused"}
    assert lorukinde.days(["PH off"], "2021-01-01", "2021-01-02").pandas().why.tolist() == ["public holidays"] * 2
    assert lorukinde.days([], "2021-01-01", "2021-01-06").pandas().shape == (0, 9)
