#!/usr/bin/env python3
"""The second reader's answers over a table of records, written from the rules alone and apart from the Rattle code: which tables fit (Ask 4), which days a rule
touches (Ask 10), and which months it can touch (Ask 11). A table is a list of records, each of 16 numbers; days are (year, month, day).

    reference_tables.py cases FILE     each line a case (its form: see `case`): writes the line's answer.
"""
import calendar
import datetime
import sys

from reference import bytes_of, read_sheet

NO_FIT, NO_DAYS, SHORT_LIST, FEW_ANSWERS = 16, 20, 21, 24
NO, YES, UNDECIDED = 0, 1, 2
ALL_MONTHS = 4095
ALL_FIVE = 31


# ---- which records fit: each word alone in the range of its kind (01, "Record words"; 04, section 4)
def years_or_none(last):
    return lambda x: x == 0 or 1900 <= x <= last


def of(lo, hi):
    return lambda x: lo <= x <= hi


def from_zero(x):
    return x >= 0


def nth(x):
    return x != 0 and -5 <= x <= 5


def dated(last):
    """the rows of a date's seven words, by form; only a fixed end may be in year 10000"""
    offsets = [of(-7, 7), of(-32767, 32767)]
    return {1: [years_or_none(last), of(1, 12), of(1, 31), of(0, 0)] + offsets, 2: [years_or_none(9999), of(1, 12), of(1, 7), nth] + offsets,
            3: [years_or_none(9999), of(0, 0), of(0, 0), of(0, 0)] + offsets}


def timed(last):
    return {0: [of(0, last)], **{k: [of(-1440, 1440)] for k in (1, 2, 3, 4)}}


ROWS = {
    1: [of(0, 2), of(0, 2), from_zero, from_zero, from_zero],
    2: [of(1900, 9999), of(1900, 9999), of(0, 32767)],
    3: [years_or_none(9999), of(1, 12), of(1, 12)],
    4: [dated(9999), dated(10000)],
    5: [of(1, 53), of(1, 53), of(0, 255)],
    6: [of(1, 7), of(1, 7), of(-32767, 32767), of(0, 31), of(0, 31)],
    7: [of(1, 2), of(-32767, 32767)],
    8: [timed(1440), timed(2880), of(-1, 1439), of(0, 1), of(0, 1)],
}


def record_fits(r):
    row, words = ROWS.get(r[0], [lambda x: False]), list(r[1:])
    for test in row:
        x = words.pop(0)
        if not isinstance(test, dict):
            if not test(x):
                return False
            continue
        if x not in test or not all(t(words.pop(0)) for t in test[x]):
            return False
    return not any(words[:-1]) and (not words or words[-1] >= 0)


def rules(table):
    """each rule: its head's number and its items"""
    out = []
    for k, r in enumerate(table):
        if r[0] == 1:
            out.append((k, []))
        elif out:
            out[-1][1].append(r)
    return out


def fits(table):
    heads = rules(table)
    if not heads or heads[0][0] != 0 or not all(map(record_fits, table)):
        return False
    return all(table[k][5] == len(items) for k, items in heads)


# ---- Ask 10: which days
def known(day):
    y, m, d = day
    return 1900 <= y <= 9999 and 1 <= m <= 12 and 1 <= d <= calendar.monthrange(y, m)[1]


def by_step(first, last, step, n):
    return first <= n <= last and (n == first if step == 0 else (n - first) % step == 0)


def round_about(first, last, n):
    return first <= n <= last if first <= last else n >= first or n <= last


def dates_touch(r, day):
    (form, y, m, d, _, wo, do), (form2, y2, m2, d2, _, wo2, do2) = r[1:8], r[8:15]
    if (form, form2) != (1, 1) or any((wo, do, wo2, do2)) or (y == 0) != (y2 == 0):
        return UNDECIDED
    if y == 0:
        return int(round_about((m, d), (m2, d2), day[1:]))
    return int((y, m, d) <= day <= (y2, m2, d2))


def item_touches(r, day):
    kind, a, b, c = r[:4]
    if kind == 2:
        return int(by_step(a, b, c, day[0]))
    if kind == 3:
        if a == 0:
            return int(round_about(b, c, day[1]))
        return UNDECIDED if b > c else int(a == day[0] and b <= day[1] <= c)
    if kind == 4:
        return dates_touch(r, day)
    _, week, weekday = datetime.date(*day).isocalendar()
    if kind == 5:
        return int(by_step(a, b, c, week))
    if kind == 6:
        return int(round_about(a, b, weekday)) if (c, *r[4:6]) == (0, ALL_FIVE, ALL_FIVE) else UNDECIDED
    return UNDECIDED


KINDS = ((2,), (3, 4), (5,), (6, 7))
FROM_WORST = (NO, UNDECIDED, YES)


def rule_touches(items, day):
    """the worst kind's best item, yes with none"""
    kinds = [[item_touches(r, day) for r in items if r[0] in kind] for kind in KINDS]
    return min((max(k, key=FROM_WORST.index) for k in kinds if k), key=FROM_WORST.index, default=YES)


def rule_days(table, rule, days, left_over, room):
    """the number, and the answers"""
    if not fits(table):
        return NO_FIT, []
    if rule >= len(rules(table)) or left_over or not all(map(known, days)):
        return NO_DAYS, []
    if room < len(days):
        return FEW_ANSWERS, []
    return 0, [rule_touches(rules(table)[rule][1], day) for day in days]


# ---- Ask 11: which months
def between(first, last):
    """a mask: the months from first to last, going round"""
    return sum(1 << m - 1 for m in range(1, 13) if round_about(first, last, m))


def item_months(r):
    if r[0] == 3:
        return between(r[2], r[3])
    start, end = r[1:8], r[8:15]
    if start[0] == 3 or end[0] == 3 or start[1] or end[1]:
        return ALL_MONTHS
    if start[2] != end[2] or start == end or (start[0] == end[0] == 1 and start[3] <= end[3]):
        return between(start[2], end[2])
    return ALL_MONTHS


def rule_months(items):
    listed = [r for r in items if r[0] in (3, 4)]
    if not listed or any(r[0] == 4 and (r[6] or r[7] or r[13] or r[14]) for r in listed):
        return ALL_MONTHS
    mask = 0
    for r in listed:
        mask |= item_months(r)
    return mask


def months(table, room):
    """the number, and the entries"""
    if not fits(table):
        return NO_FIT, []
    entries = [(head, rule_months(items)) for head, items in rules(table)]
    return (SHORT_LIST, []) if room < len(entries) else (0, entries)


# ---- cases
def days_of(text):
    """`2024-01-05`, or `2024-01-05+9` for ten days from there on; parted by blanks"""
    for word in text.split():
        day, _, more = word.partition("+")
        if more:
            start = datetime.date(*map(int, day.split("-"))).toordinal()
            yield from (datetime.date.fromordinal(n).timetuple()[:3] for n in range(start, start + int(more) + 1))
        else:
            yield tuple(map(int, day.split("-")))


def case(text):
    """parted by byte 9: `days`, edition, sheet, rule, days (see `days_of`), answered by the number and a digit for each day; or `months`, edition, sheet,
    answered by each entry's head and months. The sheet is accepted."""
    call, edition, sheet, *rest = text.split("\t")
    number, _, table, _ = read_sheet(bytes_of(sheet.encode()), 8192, int(edition))
    if number:
        return f"not accepted: {number}"
    if call == "months":
        return " ".join(f"{head}:{mask}" for head, mask in months(table, len(table))[1])
    rule, days = rest
    number, answers = rule_days(table, int(rule), list(days_of(days)), 0, 1 << 20)
    return f"{number} {''.join(map(str, answers))}".strip()


def main():
    for text in open(sys.argv[2], encoding="utf-8").read().split("\n")[:-1]:
        print(case(text))


if __name__ == "__main__":
    main()
