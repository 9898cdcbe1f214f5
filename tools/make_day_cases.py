#!/usr/bin/env python3
"""Writes cases of days and months, which the Rust tests replay (their form: reference_tables.py, `case`): the sheets of document 04, and sheets, rules and days put
together at random, the edges of the calendar among the days.

    python3 tools/make_day_cases.py > tools/cases_days.txt
    python3 tools/reference_tables.py cases tools/cases_days.txt > tools/cases_days.out
"""
import datetime
import random

from check_documents import readings
from reference import bytes_of, read_sheet

SHEETS = 2500
DAYS = 80
EDGES = ["1900-01-01", "9999-12-31", "2024-02-29", "2023-02-28", "2000-02-29", "1900-02-28", "2020-12-31", "2021-01-01", "2021-01-03", "2021-01-04", "2019-12-30", "2015-12-31", "2016-01-03"]
NO_DAYS = ["1899-12-31", "10000-01-01", "2023-02-29", "1900-02-29", "2024-04-31", "2024-13-01", "2024-00-10", "2024-01-00", "2024-01-32"]
MONTHS = "Jan Feb Mar Apr May Jun Jul Aug Sep Oct Nov Dec".split()
WEEKDAYS = "Mo Tu We Th Fr Sa Su".split()
chance = random.Random(10)


def one_of(*some):
    return chance.choice(some)


def year():
    return str(one_of(1900, 1950, 2020, 2021, 2024, 2099, 9999))


def years():
    a, b = sorted([int(year()), int(year())])
    return one_of(str(a), f"{a}+", f"{a}-{b}", f"{a}-{b}/{chance.randrange(5)}")


def offset():
    return one_of("", "", "", " +0 days", " +1 day", " -3 days", "+Mo", "-Su")


def date():
    mon = chance.choice(MONTHS)
    day = one_of(str(chance.randint(1, 31)), str(chance.randint(1, 31)), f"{chance.choice(WEEKDAYS)}[{one_of(1, 2, 5, -1)}]")
    return one_of("", "", year() + " ") + one_of(f"{mon} {day}", f"{mon} {day}", f"{mon} {day}", "easter")


def month_days():
    span = one_of("", year() + " ") + chance.choice(MONTHS) + one_of("", "-" + chance.choice(MONTHS))
    start = date() + offset()
    return one_of(span, span, start, start + "+", start + "-" + date() + offset(), start + "-" + str(chance.randint(1, 31)))


def weeks():
    a, b = sorted([chance.randint(1, 53), chance.randint(1, 53)])
    return one_of(str(a), f"{a}-{b}", f"{a}-{b}/{chance.randrange(6)}")


def weekdays():
    a, b = chance.choice(WEEKDAYS), chance.choice(WEEKDAYS)
    return one_of(a, f"{a}-{b}", f"{a}-{b}", a + one_of("[1]", "[3-1]", "[1-5]", "[-1]"), a + "[2] +1 day", "PH", "SH", "PH -1 day")


def some(one, most=3):
    return ",".join(one() for _ in range(chance.randint(1, most)))


def rule():
    wide = [some(years), some(month_days), "week " + some(weeks)]
    parts = [p for p in wide if chance.random() < 0.4] + [p for p in [some(weekdays), "10:00-12:00"] if chance.random() < 0.4]
    return " ".join(parts) or one_of("24/7", "off")


def days(edges):
    """a run of days from one on, as `2020-01-31+79`; and the edges, where they are asked for"""
    far = chance.random() < 0.2
    first, last = (datetime.date(1900, 1, 1), datetime.date.max) if far else (datetime.date(2019, 12, 1), datetime.date(2026, 1, 1))
    start = datetime.date.fromordinal(chance.randint(first.toordinal(), last.toordinal() - DAYS))
    return " ".join([f"{start}+{DAYS - 1}"] + (EDGES if edges else []))


def main():
    for _, call, sheet, _ in readings():
        edition = 2 if "/2" in call else 1
        if "months" in call:
            print("months", edition, sheet, sep="\t")
        elif " day" in call:
            print("days", edition, sheet, 0, call.split()[-1], sep="\t")
    for bad in NO_DAYS:
        print("days", 1, "Mo", 0, f"2024-01-01 {bad}", sep="\t")
    print("days", 1, "Mo", 1, "2024-01-01", sep="\t")
    print("days", 1, "Mo", 1, "", sep="\t")
    print("days", 1, "Mo", 0, "", sep="\t")
    made = 0
    while made < SHEETS:
        sheet = "; ".join(rule() for _ in range(chance.randint(1, 3)))
        if read_sheet(bytes_of(sheet.encode()), 8192, 1)[0]:
            continue
        made += 1
        print("months", 1, sheet, sep="\t")
        print("days", 1, sheet, chance.randrange(sheet.count(";") + 1), days(made % 10 == 0), sep="\t")


if __name__ == "__main__":
    main()
