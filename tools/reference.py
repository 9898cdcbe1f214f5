#!/usr/bin/env python3
"""A second reader of sheets, written from the rules alone and apart from the Rattle code, as the source of expected answers.

    reference.py items FILE     each line: a kind (2 years, 3 month days, 5 weeks, 6 weekdays, 7 holidays, 8 times), a blank, a text.
                                Writes the line, a tab, and what reading an item of that kind at the text's start gives.
    reference.py sheets FILE    each line a sheet (\\xNN for one byte): writes its answer and records.
    reference.py cases FILE     each line a case of crates/cases (its form: see `case`): writes what the program is to write.
    reference.py tallies FILE   each line a case of tools/cases_tallies.txt (its form: see `tally_case`): writes the line, and what is answered.
    reference.py readings FILE  document 03, whose lines show a sheet and its answer, - `sheet` → **n p r w**: writes those that are read otherwise. Of a
                                refusal from 3 to 9 the place is not asked, and 11 and 12 count as 3, since Ask 1 has changed these; a sheet with an
                                ill-formed comment is left out.

Shapes are regular expressions over bytes: every shape is tried and the longest that stands complete is taken. What stands is taken, and never given back
(`maybe`, `many`). Needs Python 3.11; of its possessive forms only those of single bytes are used (`\\d{1,5}+`), since before 3.11.5, so in Debian 12, those
of groups go wrong.
"""
import calendar
import re
import sys

# ---- names and numbers
WD = {b"mo": 1, b"tu": 2, b"we": 3, b"th": 4, b"fr": 5, b"sa": 6, b"su": 7}
MON = {m.encode(): i + 1 for i, m in enumerate("jan feb mar apr may jun jul aug sep oct nov dec".split())}
EVENT = {b"dawn": 1, b"sunrise": 2, b"sunset": 3, b"dusk": 4}
STATE = {b"open": 0, b"closed": 1, b"off": 1, b"unknown": 2}

wd = rb"(?:(?!week)(?!(?i:sunrise|sunset))(?i:mo|tu|we|th|fr|sa|su))"  # the longest name: `week`, `sunset` beat `We`, `Su`
mon = rb"(?i:jan|feb|mar|apr|may|jun|jul|aug|sep|oct|nov|dec)"
event = rb"(?i:dawn|sunrise|sunset|dusk)"
easter = rb"(?i:easter)"


def num(lo, hi):
    """lo to hi digits, as many as there are, and no clock time"""
    return rb"(?:(?!\d+:\d)\d{%d,%d}+)" % (lo, hi)


def without_names(shape):
    return re.sub(rb"\?P<\w+>", b"?:", shape)


def maybe(shape):
    """the shape where it stands, else nothing"""
    return rb"(?:" + shape + rb"|(?!" + without_names(shape) + rb"))"


def many(shape):
    """the shape as often as it stands"""
    return rb"(?:" + shape + rb")*(?!" + without_names(shape) + rb")"


year, count, nth1, short, mm = num(4, 4), num(1, 5), num(1, 1), num(1, 2), num(2, 2)
hmm = rb"(?:\d{1,2}+:\d\d)"
days_off = rb"(?: +(?P<%s_s>[+-])(?P<%s_n>" + count + rb") +days?)"


def day_offset(tag):
    return days_off % (tag, tag)


def offset(tag):
    return maybe((rb"(?P<%s_ws>[+-])(?P<%s_w>" + wd + rb")") % (tag, tag)) + maybe(day_offset(tag))


def date(tag):
    return maybe((rb"(?P<%s_y>" + year + rb") +") % tag) + (rb"(?:(?P<%s_e>" + easter + rb")|(?P<%s_m>" + mon + rb") +(?:(?P<%s_d>" + short + rb")|(?P<%s_wd>" + wd
            + rb")\[(?P<%s_k>-?" + nth1 + rb")\]))") % ((tag,) * 5)


def time(tag):
    return (rb"(?:(?P<%s_c>" + hmm + rb")|(?P<%s_e>" + event + rb")|\((?P<%s_v>" + event + rb")(?P<%s_s>[+-])(?P<%s_o>" + hmm + rb")\))") % ((tag,) * 5)


entry = rb"(?:-" + nth1 + rb"|" + nth1 + maybe(rb"-" + nth1) + rb")"
marks = rb"\[(?P<es>" + entry + many(rb"," + entry) + rb")\]"
SHAPES = {
    2: [rb"(?P<a>" + year + rb")", rb"(?P<a>" + year + rb")(?P<plus>\+)", rb"(?P<a>" + year + rb")-(?P<b>" + year + rb")",
        rb"(?P<a>" + year + rb")-(?P<b>" + year + rb")/(?P<n>" + count + rb")"],
    5: [rb"(?P<a>" + short + rb")", rb"(?P<a>" + short + rb")-(?P<b>" + short + rb")", rb"(?P<a>" + short + rb")-(?P<b>" + short + rb")/(?P<n>" + count + rb")"],
    3: [maybe(rb"(?P<y>" + year + rb") +") + rb"(?P<a>" + mon + rb")" + maybe(rb"-(?P<b>" + mon + rb")"),
        date(b"s") + offset(b"so"), date(b"s") + offset(b"so") + rb"(?P<plus>\+)",
        date(b"s") + offset(b"so") + rb"-" + date(b"t") + offset(b"to"), date(b"s") + offset(b"so") + rb"-(?P<bare>" + short + rb")" + offset(b"to")],
    6: [rb"(?P<a>" + wd + rb")", rb"(?P<a>" + wd + rb")-(?P<b>" + wd + rb")",
        rb"(?P<a>" + wd + rb")" + marks + maybe(day_offset(b"o"))],
    7: [rb"(?P<h>PH|SH)" + maybe(day_offset(b"o"))],
    8: [time(b"s"), time(b"s") + rb"(?P<open>\+)", time(b"s") + rb"-" + time(b"t"), time(b"s") + rb"-" + time(b"t") + rb"(?P<plus>\+)",
        time(b"s") + rb"-" + time(b"t") + rb"/(?P<rm>" + mm + rb")", time(b"s") + rb"-" + time(b"t") + rb"/(?P<rh>" + hmm + rb")"],
}
# edition 2: marks after a range too, a day offset after any weekday
SHAPES_2 = SHAPES | {6: [rb"(?P<a>" + wd + rb")" + maybe(rb"-(?P<b>" + wd + rb")") + maybe(marks) + maybe(day_offset(b"o"))]}
EDITIONS = {n: {k: [re.compile(p) for p in ps] for k, ps in shapes.items()} for n, shapes in [(1, SHAPES), (2, SHAPES_2)]}


class Refused(Exception):
    """a refusal's number; `item` adds its place"""


def need(number, good):
    if not good:
        raise Refused(number)


def minutes(text):
    h, m = text.split(b":")
    return int(h), int(m)


def signed(sign, n):
    return -n if sign == b"-" else n


def days_of(g, tag):
    """a day offset, judged"""
    n = int(g.get(tag + "_n") or 0)
    need(4, n <= 32767)
    return signed(g.get(tag + "_s"), n)


def offset_of(g, tag):
    w = g.get(tag + "_w")
    return [signed(g.get(tag + "_ws"), WD[w.lower()]) if w else 0, days_of(g, tag)]


def date_of(g, tag):
    y = g.get(tag + "_y")
    need(4, y is None or 1900 <= int(y) <= 9999)
    y = int(y or 0)
    if g.get(tag + "_e"):
        return [3, y, 0, 0, 0]
    m = MON[g[tag + "_m"].lower()]
    if g.get(tag + "_d"):
        d = int(g[tag + "_d"])
        need(4, 1 <= d <= 31)
        return [1, y, m, d, 0]
    k = int(g[tag + "_k"])
    need(4, 1 <= abs(k) <= 5)
    return [2, y, m, WD[g[tag + "_wd"].lower()], k]


A_LEAP_YEAR = 2000  # a yearless February has 29 days


def month_after(y, m):
    """the next month; without a year (0) months go round"""
    return (y, m + 1) if m < 12 else (y + 1 if y else 0, 1)


def bare_end(y, m, d, e):
    """the year and month of the first day with number e, by the calendar, that is not before day d of month m, compared as numbers"""
    if e < d:
        y, m = month_after(y, m)
    while calendar.monthrange(y or A_LEAP_YEAR, m)[1] < e:
        y, m = month_after(y, m)
    return [y, m]


def day_time(text):
    h, m = minutes(text)
    need(4, m <= 59 and (h <= 23 or (h, m) == (24, 0)))
    return h * 60 + m


def time_of(g, tag, end):
    if g.get(tag + "_c"):
        if end:
            h, m = minutes(g[tag + "_c"])
            need(4, m <= 59 and h * 60 + m <= 2880)
            return [0, h * 60 + m]
        return [0, day_time(g[tag + "_c"])]
    if g.get(tag + "_e"):
        return [EVENT[g[tag + "_e"].lower()], 0]
    return [EVENT[g[tag + "_v"].lower()], signed(g[tag + "_s"], day_time(g[tag + "_o"]))]


def meaning(kind, g):
    """the words of a shape's record; raises Refused. Every range (4) is looked at before 5 to 9. A time alone is a point (word 7), which `item` judges."""
    if kind in (2, 5):
        lo, hi = (1900, 9999) if kind == 2 else (1, 53)
        a = int(g["a"])
        b = 9999 if g.get("plus") else int(g.get("b") or a)
        n = int(g.get("n") or 1)
        need(4, lo <= a <= hi and lo <= b <= hi and n <= 32767)
        if kind == 5:
            need(5, n <= 255)
        need(6 if kind == 2 else 7, a <= b)
        return [kind, a, b, 1 if n > b - a else n]
    if kind == 3 and g.get("a"):
        y = g.get("y")
        need(4, y is None or 1900 <= int(y) <= 9999)
        a = MON[g["a"].lower()]
        return [3, int(y or 0), a, MON[g["b"].lower()] if g.get("b") else a]
    if kind == 3:
        start, so = date_of(g, "s"), offset_of(g, "so")
        if g.get("plus"):
            return [4] + start + so + [1, 9999 if start[1] else 0, 12, 31, 0, 0, 0]
        if g.get("bare"):
            e, to = int(g["bare"]), offset_of(g, "to")
            need(4, 1 <= e <= 31)
            need(9, start[0] != 3)
            ends = bare_end(*start[1:4], e) if start[0] == 1 else start[1:3]
            return [4] + start + so + [1] + ends + [e, 0] + to
        if any(g.get("t_" + x) for x in "emy"):
            return [4] + start + so + date_of(g, "t") + offset_of(g, "to")
        return [4] + start + so + start + so
    if kind == 6:
        a = WD[g["a"].lower()]
        flags = [0, 0]
        for e in (g.get("es") or b"").split(b","):
            if not e:
                continue
            back = e.startswith(b"-")
            ns = [int(x) for x in e.lstrip(b"-").split(b"-")]
            need(4, all(1 <= n <= 5 for n in ns))
            for n in range(ns[0], ns[-1] + 1):
                flags[back] |= 1 << n - 1
        d = days_of(g, "o")
        if flags == [0, 0]:
            flags = [31, 31]
        return [6, a, WD[g["b"].lower()] if g.get("b") else a, d] + flags
    if kind == 7:
        return [7, 1 if g["h"] == b"PH" else 2, days_of(g, "o")]
    start = time_of(g, "s", False)
    if not any(g.get("t_" + x) for x in "cev"):
        return [8] + start + ([0, 1440, -1, 1] if g.get("open") else start + [-1, 0, 1])
    end = time_of(g, "t", True)
    again = -1
    if g.get("rm"):
        again = int(g["rm"])
        need(4, again <= 59)
    if g.get("rh"):
        h, m = minutes(g["rh"])
        need(4, h <= 23 and m <= 59)
        again = h * 60 + m
    return [8] + start + end + [again, 1 if g.get("plus") else 0]


def item(kind, s, i, edition=1):
    """(words, place after) of an item of this kind at place i, or None; raises Refused with its number and i. The last word is i."""
    best = None
    for shape in EDITIONS[edition][kind]:
        m = shape.match(s, i)
        if m and (best is None or m.end() > best.end()):
            best = m
    if best is None:
        return None
    try:
        words = meaning(kind, best.groupdict())
        words += [0] * (15 - len(words)) + [i]
        need(8, kind != 8 or edition == 2 or not words[7])
    except Refused as r:
        raise Refused(*r.args, i) from None
    return words, best.end()


# ---- rules
BLANK = re.compile(rb" *")
COMMENT = re.compile(rb'"([\x20\x21\x23-\xff]+)"')
MODIFIER = re.compile(rb"(?i:(open|closed|off|unknown))")
WIDE, SMALL = (2, 3, 5), (6, 7, 8)


def skip(s, i):
    return BLANK.match(s, i).end()


def comment(s, i):
    """the comment at i, judged when its closing quote is read: its bytes have to be well-formed UTF-8, which Python's decoder takes as RFC 3629 has it"""
    c = COMMENT.match(s, i)
    if c:
        try:
            c.group(1).decode("utf-8")
        except UnicodeDecodeError:
            raise Refused(13, i) from None
    return c


class NoShape(Exception):
    """nothing that may follow stands at this place: the first byte after what was completed last, and its blanks"""


def no_shape_after(s, i):
    return NoShape(skip(s, i))


def modifier(s, i):
    """(state, comment start, length, place after), or None"""
    c = comment(s, i)
    if c:
        return 0, i + 1, len(c.group(1)), c.end()
    m = MODIFIER.match(s, i)
    if not m:
        return None
    c = comment(s, skip(s, m.end())) if skip(s, m.end()) > m.end() else None
    if c:
        return STATE[m.group(1).lower()], c.start() + 1, len(c.group(1)), c.end()
    return STATE[m.group(1).lower()], 0, 0, m.end()


def listed(kind, s, i, out, edition):
    """the rest of a list of this kind after an item that ends at i"""
    kinds = {6: (6, 7), 7: (7, 6)}.get(kind, (kind,))
    while s[i:i + 1] == b"," and s[i + 1:i + 2] != b" ":
        for n, k in enumerate(kinds):
            r = item(k, s, i + 1, edition)
            if r:
                kinds = kinds[n:]
                break
        else:
            raise no_shape_after(s, i + 1)
        out.append(r[0])
        i = r[1]
    return i


def first_of(s, i, kinds, out, edition):
    """a list of the first of these kinds that stands here: (kind, place after), or None"""
    for k in kinds:
        if k == 5:
            if s[i:i + 4] != b"week":
                continue
            j = skip(s, i + 4)
            r = item(5, s, j, edition) if j > i + 4 else None
            if not r:
                raise no_shape_after(s, i + 4)
        else:
            r = item(k, s, i, edition)
        if r:
            out.append(r[0])
            return k, listed(k, s, r[1], out, edition)
    return None


def rule(s, i, edition):
    """(state, comment start, length, items, place after)"""
    out = []
    wide = (0, 0)
    state = (0, 0, 0)
    if s[i:i + 4] == b"24/7":
        i += 4
        more = ()
    else:
        c = comment(s, i)
        if c and s[c.end():c.end() + 1] == b":":
            wide = (i + 1, len(c.group(1)))
            more = colon(s, c.end(), out, edition)
            i = more[1]
            more = (8,) if more[0] in (6, 7) else ()
        else:
            got = first_of(s, i, (3, 2, 5, 6, 7, 8), out, edition)
            if got is None:
                m = modifier(s, i)
                if m is None:
                    raise NoShape(i)
                return m[0], m[1], m[2], out, m[3]
            more, i = following(s, got, out, edition)
    while more:
        j = skip(s, i)
        got = first_of(s, j, more, out, edition) if j > i else None
        if got is None:
            break
        more, i = following(s, got, out, edition)
    j = skip(s, i)
    m = modifier(s, j) if j > i else None
    if m:
        state, i = m[:3], m[3]
    if state[2] == 0:
        state = (state[0],) + wide
    return state + (out, i)


def colon(s, i, out, edition):
    """after `:` a blank and a small part have to stand"""
    j = skip(s, i + 1)
    got = first_of(s, j, SMALL, out, edition) if j > i + 1 else None
    if got is None:
        raise no_shape_after(s, i + 1)
    return got


def following(s, got, out, edition):
    """the kinds that may stand after a blank after this list, and the place"""
    kind, i = got
    if kind in WIDE and s[i:i + 1] == b":":
        kind, i = colon(s, i, out, edition)
    return {2: (3, 5, 6, 7, 8), 3: (5, 6, 7, 8), 5: (6, 7, 8), 6: (8,), 7: (8,), 8: ()}[kind], i


SEPARATOR = re.compile(rb";|,(?= )|\|\|")
SEPARATORS = {b";": 0, b",": 1, b"||": 2}
NO_SHAPE = (3, 11, 12)


def no_shape(s, rule, i):
    """the number for a rule where no shape fits at i: 11 an empty rule, 12 a quote that opens no comment, 3 the rest"""
    if i == rule and (i == len(s) or SEPARATOR.match(s, i)):
        return 11
    if s[i:i + 1] == b'"' and (s[i + 1:i + 2] == b'"' or b'"' not in s[i + 1:]):
        return 12
    return 3


def rules_of(s, edition):
    """the records of all rules of a text; raises Refused with its number and place"""
    records, i, separator = [], 0, 0
    while True:
        place = i = skip(s, i)
        try:
            state, start, length, items, i = rule(s, i, edition)
            records += [[1, separator, state, start, length, len(items)] + [0] * 9 + [place]] + items
            i = skip(s, i)
            if i == len(s):
                return records
            m = SEPARATOR.match(s, i)
            if not m:
                raise NoShape(i)
        except NoShape as r:
            raise Refused(no_shape(s, place, *r.args), *r.args) from None
        separator, i = SEPARATORS[m.group()], m.end()


# ---- the house profile
HOUSE = "house"
HOWS = (*EDITIONS, HOUSE)  # how a text is read: by an edition, or as a house sheet, which is edition 1's
MIDNIGHT = 1440


def house(records):
    """raises Refused at the leftmost record of an accepted text that the house does not allow; at one place 22 before 23"""
    latest = 0  # when the rule's earlier spans end
    for r in records:
        if r[0] == 1:
            latest = 0
            if r[1] != 0:
                raise Refused(22, r[15])
        if r[0] == 8:
            start_kind, start, end_kind, end, again, is_open = r[1:7]
            if start_kind or end_kind or end > MIDNIGHT or again != -1 or is_open:
                raise Refused(22, r[15])
            if end <= start or start < latest:
                raise Refused(23, r[15])
            latest = end


def sheet(s, room=512, how=1):
    """(number, place, records): the records of a text, or its refusal"""
    if how not in HOWS:
        return 19, 0, []
    if len(s) > 4096:
        return 1, 0, []
    try:
        records = rules_of(s, 1 if how == HOUSE else how)
        if how == HOUSE:
            house(records)
    except Refused as r:
        return *r.args, []
    return (10, 0, []) if len(records) > room else (0, 0, records)


WORDS = re.compile(rb"[A-Za-z]+")


def warnings(s):
    """names of an accepted sheet that are not written as they should be"""
    n = 0
    for run in WORDS.finditer(re.sub(rb'"[^"]*"', lambda m: b" " * len(m.group()), s)):
        w = run.group()
        low = w.lower()
        if low in WD or low in MON:
            n += w != w.capitalize()
        elif low in EVENT or low in STATE or low == b"easter":
            n += w != low
    return n


def line_of(words):
    return " ".join(str(int(w)) for w in words)


def read_sheet(s, words, how=1):
    """(number, place, records, warnings) with a table of so many words"""
    number, place, records = sheet(s, words // 16, how)
    return number, place, records, warnings(s) if number == 0 else 0


# ---- parts
PART = re.compile(rb'(?:[^";]|"[^"]*"?)*')  # up to a `;` outside quotes; a quote that is never closed goes to the end


def parts(s):
    """the (beginning, end) of each part"""
    out, i = [], 0
    while True:
        end = PART.match(s, i).end()
        out.append((i, end))
        if end == len(s):
            return out
        i = end + 1


def moved(record, d):
    """the record of a text that stands d bytes later: its item's place moves, and so does the start of a head's comment"""
    start = [record[3] + d] if record[0] == 1 and record[4] else [record[3]]
    return record[:3] + start + record[4:15] + [record[15] + d]


def read_part(s, place, words, how=1):
    """(number, place, records, warnings, next, last): the part's text read alone, its places counted from the sheet's start"""
    if how not in HOWS or len(s) > 4096:
        return *read_sheet(s, words, how), 0, True
    ends = dict(parts(s))
    if place not in ends:
        return 2, 0, [], 0, 0, True
    end = ends[place]
    number, at, records, warned = read_sheet(s[place:end], words, how)
    last = end == len(s)
    return number, at + place if number else 0, [moved(r, place) for r in records], warned, 0 if last else end + 1, last


def chain(s, words, how=1):
    """each part's reading, from place 0 on by `next`"""
    place, out = 0, []
    while True:
        out.append((place, read_part(s, place, words, how)))
        if out[-1][1][5]:
            return out
        place = out[-1][1][4]


# ---- feeds
def feed_lines(feed):
    """the sheets of a feed, parted by byte 10; a final one starts no line"""
    lines = feed.split(b"\n")
    return lines if lines[-1] else lines[:-1]


def read_feed(feed, answer_words, words):
    """(number, the lines' answers, their records) with tables of so many words; each line has the room that the lines before it have left"""
    answers, records = [], []
    lines = feed_lines(feed)
    if answer_words // 4 < len(lines):
        return 14, [], []
    for line in lines:
        number, place, got, warned = read_sheet(line, words - 16 * len(records))
        answers.append((number, place, len(got), warned))
        records += got
    return 0, answers, records


# ---- tallies: which records fit, and the counts of answers
ANY = range(0, 2 ** 31)
OFFSET, DAYS = range(-7, 8), range(-32767, 32768)
NONE = (0,)


def years(last=9999):
    return (0, *range(1900, last + 1))


def date_rows(last):
    """the seven words of a date by its form; only a fixed end may be in year 10000"""
    return [[(1,), years(last), range(1, 13), range(1, 32), NONE, OFFSET, DAYS],
            [(2,), years(), range(1, 13), range(1, 8), (-5, -4, -3, -2, -1, 1, 2, 3, 4, 5), OFFSET, DAYS],
            [(3,), years(), NONE, NONE, NONE, OFFSET, DAYS]]


def time_rows(last):
    return [[NONE, range(0, last + 1)], [range(1, 5), range(-1440, 1441)]]


HEAD = [range(0, 3), range(0, 3), ANY, ANY, ANY]
# the words after word 0 that a kind uses: rows of ranges, one for each form
ROWS = {
    1: [HEAD],
    2: [[range(1900, 10000), range(1900, 10000), range(0, 32768)]],
    3: [[years(), range(1, 13), range(1, 13)]],
    4: [start + end for start in date_rows(9999) for end in date_rows(10000)],
    5: [[range(1, 54), range(1, 54), range(0, 256)]],
    6: [[range(1, 8), range(1, 8), DAYS, range(0, 32), range(0, 32)]],
    7: [[range(1, 3), DAYS]],
    8: [start + end + [range(-1, 1440), range(0, 2), range(0, 2)] for start in time_rows(1440) for end in time_rows(2880)],
}
LAST_ASK = 14


def whole_row(row, ask=LAST_ASK):
    """a row of fifteen: unused words are 0, and word 15 is from 0 up since Ask 7"""
    return row + [NONE] * (14 - len(row)) + [ANY if ask >= 7 else NONE]


def record_fits(record, ask=LAST_ASK):
    """each word alone is in its kind's range; word 7 of a span may be 1 since Ask 9"""
    if record[0] == 8 and ask < 9 and record[7] != 0:
        return False
    return any(all(w in r for w, r in zip(record[1:], whole_row(row, ask))) for row in ROWS.get(record[0], []))


def table_fits(words, ask=LAST_ASK):
    """whole groups: heads, at least one, each with just its number of items"""
    if len(words) % 16 or not words:
        return False
    records, left = [words[i:i + 16] for i in range(0, len(words), 16)], 0
    for r in records:
        if (r[0] == 1) != (left == 0) or not record_fits(r, ask):
            return False
        left = r[5] if r[0] == 1 else left - 1
    return left == 0


COUNTS, MOST = 34, 2 ** 32 - 1
SHEET_NUMBERS = {0, 1, *range(3, 14), 19, 22, 23}


def answer_fits(number, records, warned, words):
    if number not in SHEET_NUMBERS:
        return False
    return records * 16 == len(words) and table_fits(words) if number == 0 else records == warned == len(words) == 0


def counts_of(number, warned, words):
    """word n, 0 to 23: answers with the number n; 24 answers; 25 warnings; 24 + k items of kind k; 33 marks"""
    counts = [0] * COUNTS
    counts[number] += 1
    counts[24] += 1
    counts[25] += warned
    for i in range(0, len(words), 16):
        if words[i] > 1:
            counts[24 + words[i]] += 1
        if words[i] == 6:
            counts[33] += bin(words[i + 4]).count("1") + bin(words[i + 5]).count("1")
    return counts


def joined(tally, other):
    """(number, counts): 15 if a sum passes the limit"""
    sums = [a + b for a, b in zip(tally, other)]
    return (15, tally) if max(sums) > MOST else (0, sums)


def taken_in(tally, number, place, records, warned, words):
    """(number, counts): 16 if the answer and its records do not fit, then 15"""
    if not answer_fits(number, records, warned, words):
        return 16, tally
    return joined(tally, counts_of(number, warned, words))


def table_of(text):
    """records parted by `/`, trailing zeros left out; a `.` at the end: the last is not filled up"""
    words = []
    for record in text.replace(".", "").split("/"):
        got = [int(w) for w in record.split()]
        words += got + [0] * (16 - len(got)) if got else []
    return words[:len(words) - 16] + [int(w) for w in text.rstrip(" .").split("/")[-1].split()] if text.rstrip().endswith(".") else words


def tally_of(text):
    """counts as place=count, the others 0"""
    counts = [0] * COUNTS
    for word in text.split():
        place, count = map(int, word.split("="))
        counts[place] = count
    return counts


def tally_case(line):
    """A case: a tally; an answer's four numbers; its table. Or: a tally; `join`; a tally. Writes the number, and the counts afterwards that are not 0."""
    tally, what, rest = line.split(";")
    if what.strip() == "join":
        number, counts = joined(tally_of(tally), tally_of(rest))
    else:
        number, counts = taken_in(tally_of(tally), *map(int, what.split()), table_of(rest))
    return " ".join([str(number)] + [f"{i}={n}" for i, n in enumerate(counts) if n])


# ---- cases
def shown(reading):
    """an answer's line, and one for each record"""
    return [line_of(reading[:2] + (len(reading[2]),) + reading[3:])] + [line_of(r) for r in reading[2]]


def sheet_lines(s, words, how=1):
    return shown(read_sheet(s, words, how))


def part_lines(s, words, how=1):
    return [line for _, r in chain(s, words, how) for line in shown(r)]


def place_lines(s, words, how=1):
    """the places, from 0 to one after the end, where a part begins"""
    return [" ".join(["B"] + [str(p) for p in range(len(s) + 2) if read_part(s, p, words, how)[0] != 2])]


def still(s, p, r, t, q, w):
    """whether the reading r of the part at p in s is, with its places moved, the reading w of the part at q in t"""
    def rest(place, r):
        return (r[0], r[1] - place if r[0] else 0, [moved(x, -place) for x in r[2]], r[3], r[4] if r[5] else r[4] - place, r[5])

    def comments(s, r):
        return [s[x[3]:x[3] + x[4]] for x in r[2] if x[0] == 1]
    return rest(p, r) == rest(q, w) and comments(s, r) == comments(t, w)


def exchange_lines(s, t, k, words, how=1):
    """a sheet and the same with its part k exchanged: how many of the other parts are read as before, and how many are not"""
    same = [still(s, p, r, t, q, w) for i, ((p, r), (q, w)) in enumerate(zip(chain(s, words, how), chain(t, words, how))) if i != k]
    return [f"X {same.count(True)} {same.count(False)}"]


def damage_lines(s, t, k, words, how):
    """two sheets that agree up to the `;` that ends part k: how many of the parts up to there are read alike, at the same place, and how many are not"""
    pairs = list(zip(chain(s, words, how), chain(t, words, how)))[:k + 1]
    same = [p == q and still(s, p, r, t, q, w) for (p, r), (q, w) in pairs]
    return [f"U {same.count(True)} {same.count(False)}"]


def feed_answer_lines(feed, answer_words, words):
    """a feed's number, lines and records, then each line's answer, then each record"""
    number, answers, records = read_feed(feed, answer_words, words)
    return [line_of(x) for x in [(number, len(answers), len(records)), *answers, *records]]


def note(s, standing, start, length):
    """the comment out of the sheet, the standing note, or for numbers outside the sheet nothing"""
    if length == 0:
        return standing
    return s[start:start + length] if start >= 0 and length >= 0 and start + length <= len(s) else b""


def note_lines(s):
    numbers = [-2147483648, -1, 0, 1, 3, 5, 6, 2147483647]
    return [b"".join(note(s, b"standing", a, n) + b"|" for n in numbers).decode("latin-1") for a in numbers]


def case(raw):
    """A case: four digits for the words of the table; a letter; a byte more; the sheet. For S, P, A and L the byte more is a blank, or the edition as a digit
    for the calls that take one, or h for a house sheet; for X, Y and Z it is the number of the exchanged part, for U, V and W of the last part before damage; else a blank.
    S the sheet. P its parts, and the places where they begin. A both. L, for a long sheet, both without the places.
    X two sheets with byte 9 between them, of which one part differs; Y the same in edition 2, Z as house sheets. U two sheets with byte 9 between them, that agree up to the `;` that ends a part; V the same in edition 2, W as house sheets. N the notes for some starts and lengths.
    F four digits for the words of the answer table, and a feed, in which byte 9 stands for byte 10."""
    words, mode, more, s = int(raw[:4]), raw[4:5], raw[5:6], raw[6:]
    if mode in b"XYZ":
        one, other = s.split(b"\t")
        return exchange_lines(one, other, int(more), words, {b"X": 1, b"Y": 2, b"Z": HOUSE}[mode])
    if mode in b"UVW":
        one, other = s.split(b"\t")
        return damage_lines(one, other, int(more), words, {b"U": 1, b"V": 2, b"W": HOUSE}[mode])
    if mode == b"N":
        return note_lines(s)
    if mode == b"F":
        return feed_answer_lines(s[4:].replace(b"\t", b"\n"), int(s[:4]), words)
    how, out = 1 if more == b" " else HOUSE if more == b"h" else int(more), []
    if mode in b"SAL":
        out += sheet_lines(s, words, how)
    if mode in b"PAL":
        out += part_lines(s, words, how)
    if mode in b"PA":
        out += place_lines(s, words, how)
    return out


def bytes_of(text):
    return re.sub(rb"\\x([0-9a-f]{2})", lambda m: bytes([int(m.group(1), 16)]), text)


def item_line(raw):
    raw = raw.split(b"\t")[0]
    try:
        r = item(int(raw[:1]), raw[2:], 0)
        answer = "none" if r is None else f"{line_of(r[0])} to {r[1]}"
    except Refused as e:
        answer = f"refused {e.args[0]}"
    return raw + b"\t" + answer.encode()


READING = re.compile(rb"- `(.*?)` \xe2\x86\x92 \*\*(\d+ \d+ \d+ \d+)\*\*")


def as_before(number, place, *rest):
    """an answer as far as Ask 1 has left it as it was"""
    return (3, *rest) if number in NO_SHAPE else (number, *rest) if number in range(4, 10) else (number, place, *rest)


def other_readings(lines):
    def said(sheet):
        number, place, records, warned = read_sheet(bytes_of(sheet), 8192)
        return as_before(number, place, len(records), warned)
    found = [m for m in map(READING.match, lines) if m and said(m.group(1))[0] != 13]
    other = [m for m in found if said(m.group(1)) != as_before(*map(int, m.group(2).split()))]
    return [m.group() for m in other] + [b"%d sheets, %d read otherwise" % (len(found), len(other))]


def main():
    mode, path = sys.argv[1], sys.argv[2]
    lines = open(path, "rb").read().split(b"\n")
    out = []
    if mode == "items":
        out = [item_line(raw) for raw in lines if raw]
    elif mode == "cases":
        for raw in lines[:-1]:
            out += [raw] + [line.encode("latin-1") for line in case(raw)]
    elif mode == "tallies":
        out = [part for raw in lines[:-1] for part in (raw, tally_case(raw.decode()).encode())]
    elif mode == "readings":
        out = other_readings(lines)
    else:
        out = [line.encode() for raw in lines for line in sheet_lines(bytes_of(raw), 8192)]
    sys.stdout.buffer.write(b"".join(line + b"\n" for line in out))


if __name__ == "__main__":
    main()
