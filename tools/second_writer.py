#!/usr/bin/env python3
"""A second writer of sheets (Ask 6), written from the documents alone and apart from the Rattle code, as the source of expected answers.

    second_writer.py cases FILE    each line a case: bytes of the output, a table as document 04 writes it (records parted by ` / `, words left out at a record's end are 0;
                                   a record of more than 16 words leaves the rest over), the lent sheet (\\xNN for one byte), parted by byte 9.
                                   Writes the line, and number, length and text.

It asks nothing of the words: whatever they are, a text is put together, and the second reader (reference.py) reads it, for any length. Where that gives the same
records and comments, starts and word 15 aside, it is the text; where it does not, no sheet reads so.
"""
import sys

from reference import Refused, bytes_of, rules_of, warnings

NO_TEXT, LONG_TEXT, LONGEST = 17, 18, 4096
WEEKDAYS = ["", "Mo", "Tu", "We", "Th", "Fr", "Sa", "Su"]
MONTHS = ["", "Jan", "Feb", "Mar", "Apr", "May", "Jun", "Jul", "Aug", "Sep", "Oct", "Nov", "Dec"]
EVENTS = ["", "dawn", "sunrise", "sunset", "dusk"]
HOLIDAYS = ["", "PH", "SH"]
STATES = ["", "off", "unknown"]
SEPARATORS = [";", ", ", "||"]
HEAD, YEARS, MONTH_SPAN, DATE_SPAN, WEEKS, WEEKDAY, HOLIDAY, TIMES = range(1, 9)
PART = {YEARS: 1, MONTH_SPAN: 2, DATE_SPAN: 2, WEEKS: 3, WEEKDAY: 4, HOLIDAY: 4, TIMES: 5}  # the parts of a rule, in their order; the first three are wide
WIDE = 3
ALL_MARKS = [0, 31, 31]  # no offset, all ten
AFTER_9999 = 10000


class NoText(Exception):
    pass


def name(names, n):
    if not 1 <= n < len(names):
        raise NoText
    return names[n]


def sign(n):
    return "-" if n < 0 else "+"


def clock(minutes):
    return f"{minutes // 60}:{minutes % 60:02}"


def days(n):
    return f" {sign(n)}{abs(n)} days" if n else ""


def step(n):
    return "" if n == 1 else f"/{n}"


def year(y):
    return f"{y:04} " if y else ""


def time(kind, minutes):
    if kind == 0:
        return clock(minutes)
    event = name(EVENTS, kind)
    return f"({event}{sign(minutes)}{clock(abs(minutes))})" if minutes else event


def date(form, y, month, day, nth):
    if form == 3:
        return year(y) + "easter"
    return year(y) + name(MONTHS, month) + (f" {day}" if form == 1 else f" {name(WEEKDAYS, day)}[{nth}]")


def offset(weekday, n):
    return (sign(weekday) + name(WEEKDAYS, abs(weekday)) if weekday else "") + days(n)


def dates(w):
    start, end = w[1:8], w[8:15]
    text = date(*start[:5]) + offset(*start[5:])
    if start == end:
        return text
    return text + "-" + (str(end[3]) if end[1] == AFTER_9999 else date(*end[:5])) + offset(*end[5:])


def weekdays(w):
    first, last, n, starts, ends = w[1:6]
    if first != last:
        return name(WEEKDAYS, first) + "-" + name(WEEKDAYS, last)
    if w[3:6] == ALL_MARKS:
        return name(WEEKDAYS, first)
    marks = [str(k) for k in range(1, 6) if starts >> k - 1 & 1] + [str(-k) for k in range(1, 6) if ends >> k - 1 & 1]
    return f"{name(WEEKDAYS, first)}[{','.join(marks)}]{days(n)}"


def item(w):
    kind = w[0]
    if kind == YEARS:
        return f"{w[1]:04}-{w[2]:04}{step(w[3])}"
    if kind == MONTH_SPAN:
        return year(w[1]) + name(MONTHS, w[2]) + ("" if w[2] == w[3] else "-" + name(MONTHS, w[3]))
    if kind == DATE_SPAN:
        return dates(w)
    if kind == WEEKS:
        return f"{w[1]}-{w[2]}{step(w[3])}"
    if kind == WEEKDAY:
        return weekdays(w)
    if kind == HOLIDAY:
        return name(HOLIDAYS, w[1]) + days(w[2])
    return time(w[1], w[2]) + "-" + time(w[3], w[4]) + ("/" + clock(w[5]) if w[5] != -1 else "+" if w[6] == 1 else "")


def items(records):
    text, before = "", 0
    for w in records:
        if w[0] not in PART:
            raise NoText
        part = PART[w[0]]
        text += "" if before == 0 else "," if before == part else ": " if before <= WIDE < part else " "
        text += ("week " if part == 3 != before else "") + item(w)
        before = part
    return text


def comment(head, lent):
    start, length = head[3:5]
    if length == 0:
        return b""
    if start < 0 or length < 0 or start + length > len(lent):
        raise NoText
    return lent[start:start + length]


def rule(head, records, lent):
    said = comment(head, lent)
    state = b"" if head[2] == 0 else name(STATES, head[2]).encode()
    quoted = b'"' + said + b'"' if said else b""
    return b" ".join(filter(None, [items(records).encode(), state, quoted])) or b"24/7"


def put_together(records, lent):
    text, k = b"", 0
    while k < len(records):
        head = records[k]
        if head[0] != HEAD or not 0 <= head[5] < len(records) - k or not 0 <= head[1] < len(SEPARATORS):
            raise NoText
        text += SEPARATORS[head[1]].encode() if k else b""
        text += rule(head, records[k + 1:k + 1 + head[5]], lent)
        k += 1 + head[5]
    return text


def rows(records, sheet):
    """records with their comments, starts and word 15 aside"""
    return [(list(map(int, r[:3] + r[4:15])), sheet[r[3]:r[3] + r[4]] if r[4] else b"") if r[0] == HEAD else (list(map(int, r[:15])), b"") for r in records]


def text_of(table, lent):
    """the text of a table, or None"""
    records = [table[k:k + 16] for k in range(0, len(table), 16)]
    if not records or len(records[-1]) < 16:
        return None
    try:
        text = put_together(records, lent)
        back = rules_of(text, 1)
    except (NoText, Refused):
        return None
    if rows(back, text) != rows(records, lent):
        return None
    assert warnings(text) == 0, text
    return text


def write(table, lent, out):
    """(number, length, the output afterwards)"""
    text = text_of(table, lent)
    if text is None:
        return NO_TEXT, 0, out
    if len(text) > min(LONGEST, len(out)):
        return LONG_TEXT, 0, out
    return 0, len(text), text + out[len(text):]


def table_of(said):
    """the words of records as document 04 writes them"""
    table = []
    for record in filter(None, said.strip("{}").split("/")):
        words = list(map(int, record.split()))
        table += words + [0] * (16 - len(words))
    return table


def case(raw):
    room, said, lent = raw.split(b"\t")
    number, length, out = write(table_of(said.decode()), bytes_of(lent), b"~" * int(room))
    return [raw, b"%d %d %s" % (number, length, out[:length])]


def main():
    lines = [line for raw in open(sys.argv[2], "rb").read().split(b"\n")[:-1] for line in case(raw)]
    sys.stdout.buffer.write(b"".join(line + b"\n" for line in lines))


if __name__ == "__main__":
    main()
