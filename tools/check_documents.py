#!/usr/bin/env python3
"""Holds the second reader to what the documents say: document 01's sheets, the words and places that the readings (03, and section 8 of 04) name beside an answer,
and the cases of document 04 for the Asks in force, which stand in tools/readings.txt.

    check_documents.py [DOCUMENT-01 [DOCUMENT-04]]     writes each that is read otherwise, and how many there are; with the documents, also each of their cases that is missing here.
    check_documents.py take DOCUMENT-04                writes document 04's cases as tools/readings.txt has them: section, Ask and call, sheet, answer, parted by byte 9.
"""
import os
import re
import sys

from reference import HOUSE, bytes_of, chain, line_of, read_feed, read_part, read_sheet, table_fits, table_of
from reference_tables import months, rule_days

IN_FORCE = {1, 2, 3, 4, 7, 8, 9, 10, 11, 12, 13}
CHANGES = (1, 3, 7, 8, 9, 12)  # the Asks after which a sheet or a part is read otherwise
WORDS = 8192
NO = [0] * 16
# sheet: (number, place), or {(record, word): value}
DOCUMENT_01 = {
    "2020 Dec 25-05": {(1, 9): 2021, (1, 10): 1, (1, 11): 5},
    "Dec 25-25": {(1, 9): 0, (1, 10): 12, (1, 11): 25},
    "9999 Dec 31-01": {(1, 9): 10000, (1, 10): 1, (1, 11): 1},
    "Jan 31-30": {(1, 10): 3, (1, 11): 30},  # by Ask 8: document 01 has 2, 30
    "easter-05": (9, 0),
    "10:00": (8, 0),
    "10:00-12:00/24:00": (4, 0),
    "Fr[3-1]": {(1, 4): 31, (1, 5): 31},
    "Fr[3-1,2]": {(1, 4): 2, (1, 5): 0},
    "week 5-1/256": (5, 5),  # by Ask 1: the number's place
    "week 5-1/255": (7, 5),
    "2021-2020": (6, 0),
    "2020-2022/2": {(1, 3): 2},
    "2020-2022/3": {(1, 3): 1},
    "": (11, 0),  # by Ask 1, as the next
    "Mo;; Tu": (11, 3),
    "Mo,Tu": {(0, 5): 2, (1, 0): 6, (2, 0): 6},
    "Mo, Tu": {(0, 5): 1, (2, 0): 1, (2, 1): 1},
    "1899": (4, 0),
    "10:00-48:00": {(1, 4): 2880},
    "10:00-48:01": (4, 0),
    "10:00+": {(0, 0): 1, (0, 5): 1, (1, 0): 8, (1, 1): 0, (1, 2): 600, (1, 3): 0, (1, 4): 1440, (1, 5): -1, (1, 6): 1},
    "2020 Dec 25-05 off": {(0, 2): 1, (1, 9): 2021, (1, 10): 1, (1, 11): 5},
}
READINGS = {
    "Jan Mo[1,2]": {(1, 0): 3, (2, 0): 6, (2, 4): 3},
    "2020 Jan Mo[1-2]": {(1, 0): 3, (1, 1): 2020, (2, 0): 6},
    "Jan Mo": {(1, 0): 3, (2, 0): 6},
    "Jan 1+Mo": {(1, 6): 1, (1, 13): 1},
    "Jan 1-Mo": {(1, 6): -1},
    "easter-Mo": {(1, 6): -1},
    "Jan 1+ Mo": {(1, 10): 12, (1, 11): 31, (2, 0): 6},
    "24:00-26:00": {(1, 2): 1440},
    "24:00+": {(1, 2): 1440, (1, 4): 1440, (1, 6): 1},
    "(sunset+24:00)-26:00": {(1, 1): 3, (1, 2): 1440},
    "10:00-12:00/23:59": {(1, 5): 1439},
    "10:00-0:00": {(1, 4): 0},
    "10:00-12:00/00": {(1, 5): 0},
    "2020 Jan 5-Feb 6": {(1, 9): 0},
    "Jan 5 -3 days-3": {(1, 7): -3, (1, 10): 2, (1, 11): 3},
    "2020 Dec Mo[-1]-01": {(1, 8): 1, (1, 9): 2020, (1, 10): 12, (1, 11): 1},
    "2020 easter+": {(1, 8): 1, (1, 9): 9999, (1, 10): 12, (1, 11): 31},
    "easter+": {(1, 8): 1, (1, 9): 0, (1, 10): 12, (1, 11): 31},
    "PH +0 days,SH -0 day": {(1, 2): 0, (2, 2): 0},
    "PH,Mo": {(1, 0): 7, (2, 0): 6},
    "Fr[3-1] +1 day": {(1, 3): 1, (1, 4): 31, (1, 5): 31},
    "Jan 10:00-12:00": {(1, 0): 3, (2, 0): 8},
    "\"Xmas\": Mo off": {(0, 3): 1, (0, 4): 4},
    "\"Xmas\": Mo \"y\"": {(0, 3): 12, (0, 4): 1},
    "2020 Nov 30-29": {(1, 9): 2020, (1, 10): 12},
    "2020": {(1, 3): 1},
    "2020-2020/0": {(1, 3): 0},
    "9999+": {(1, 1): 9999, (1, 2): 9999, (1, 3): 1},
    "Sa-Mo": {(1, 1): 6, (1, 2): 1},
    "10:00-12:00+": {(1, 4): 720, (1, 6): 1},
    "sunrise+": {(1, 3): 0, (1, 4): 1440, (1, 6): 1},
    "Mo;x": (3, 3),
    "2021 Jan 30-29": {(1, 9): 2021, (1, 10): 3, (1, 11): 29},
    "2024 Jan 30-29": {(1, 9): 2024, (1, 10): 2, (1, 11): 29},
    "Feb Mo[1]-30": {(1, 1): 2, (1, 8): 1, (1, 9): 0, (1, 10): 2, (1, 11): 30},
    "Feb 30": {(1, 3): 2, (1, 4): 30, (1, 10): 2, (1, 11): 30},
    "Jan 31-Feb 30": {(1, 9): 0, (1, 10): 2, (1, 11): 30},
    "2021 Feb 30-1": {(1, 3): 2, (1, 4): 30, (1, 9): 2021, (1, 10): 3, (1, 11): 1},
    "Feb 30-30": {(1, 3): 2, (1, 4): 30, (1, 9): 0, (1, 10): 3, (1, 11): 30},
    "2021 Feb 29-29": {(1, 3): 2, (1, 4): 29, (1, 9): 2021, (1, 10): 3, (1, 11): 29},
    "Apr 5-31": {(1, 9): 0, (1, 10): 5, (1, 11): 31},
    "Feb 5-30": {(1, 9): 0, (1, 10): 3, (1, 11): 30},
    "Jan 31 -2 days-30": {(1, 7): -2, (1, 9): 0, (1, 10): 3, (1, 11): 30},
    "1900 Jan 30-29": {(1, 9): 1900, (1, 10): 3, (1, 11): 29},
    "2000 Jan 30-29": {(1, 9): 2000, (1, 10): 2, (1, 11): 29},
    "2021-2021 Jan 30-29": {(1, 0): 2, (2, 3): 1, (2, 9): 0, (2, 10): 2, (2, 11): 29},
    "9999 Dec 31-30": {(1, 9): 10000, (1, 10): 1, (1, 11): 30},
}
# sheet, place, words: number, place, records, next, last
PARTS = {
    ("Mo;; Tu", 0, 512): (0, 0, 2, 3, 0),
    ("Mo;; Tu", 3, 512): (11, 3, 0, 4, 0),
    ("Mo;; Tu", 4, 512): (0, 0, 2, 0, 1),
    ("Mo; Tu", 4, 512): (2, 0, 0, 0, 1),
    ("Mo; Tu", 6, 512): (2, 0, 0, 0, 1),
    ("Mo;", 3, 512): (11, 3, 0, 0, 1),
    ("Mo; Tu", 3, 31): (10, 3, 0, 0, 1),
    ("Mo, 10:00;Tu", 0, 512): (8, 4, 0, 10, 0),
    ("Mo \"a\\x01;b\"; Tu", 0, 512): (3, 3, 0, 10, 0),
    ("Mo \"a\\x01;b\"; Tu", 10, 512): (0, 0, 2, 0, 1),
    ("Mo\";Tu", 4, 512): (2, 0, 0, 0, 1),
    ("Mo \"a;Tu", 6, 512): (2, 0, 0, 0, 1),
    ("Mo;Tu", 0, 32): (0, 0, 2, 3, 0),
    ("Mo;Tu", 3, 32): (0, 0, 2, 0, 1),
    ("Mo" + " " * 4095, 7, 32): (1, 0, 0, 0, 1),
}
SHEETS = {("Mo;Tu", 32): (10, 0), ("Mo;Tu", 63): (10, 0), ("Mo;Tu", 64): (0, 0), ("Mo", 47): (0, 0), ("Mo;x", 0): (3, 3), ("Mo" + " " * 4094, 32): (0, 0)}

SECTION = re.compile(r"\*\*(\d+\.\d+) ")
CASE = re.compile(r"- \[(\d+)(/\w+)?( part| words| feed| fit| day| months)?\] [`{](.*?)[`}](?: at (\d+)| on (\S+)| answers (\d+) table (\d+))? → \*\*(.*?)\*\*")


def taken(path):
    """the cases of document 04 for the Asks in force: section, Ask and call, sheet, answer"""
    section = ""
    for line in open(path, encoding="utf-8"):
        section = m.group(1) if (m := SECTION.match(line)) else section
        m = CASE.match(line)
        if m and {n for n in CHANGES if n <= int(m.group(1))} <= IN_FORCE:
            ask, how, call, sheet, *numbers, answer = m.groups(default="")
            yield section, " ".join([ask + how + call, *filter(None, numbers)]), sheet, answer.strip()


def readings():
    path = os.path.join(os.path.dirname(os.path.abspath(__file__)), "readings.txt")
    return [tuple(line.split("\t")) for line in open(path, encoding="utf-8").read().split("\n")[1:-1]]


def said(call, s):
    """a reading, or whether a table fits, as document 04 writes it"""
    if "fit" in call:
        return "0" if table_fits(table_of(s.decode()), int(call.split()[0])) else "16"
    if "feed" in call:
        number, answers, records = read_feed(s, *map(int, call.split()[2:]))
        return f"{number} {len(answers)} {len(records)}: {' / '.join(map(line_of, answers))}".strip()
    named = re.search(r"/(\w+)", call)
    how = 1 if not named else HOUSE if named.group(1) == HOUSE else int(named.group(1))
    if "part" in call:
        number, place, records, warned, follows, last = read_part(s, int(call.split()[-1]), WORDS, how)
        return f"{number} {place} {len(records)} {warned} {follows} {'last' if last else 'more'}"
    number, place, records, warned = read_sheet(s, WORDS, how)
    if "months" in call:
        return " ".join(f"{head}:{mask}" for head, mask in months(records, len(records))[1])
    if "day" in call:
        return line_of(rule_days(records, 0, [tuple(map(int, call.split()[-1].split("-")))], 0, 1)[1])
    if "words" in call:
        return " / ".join(line_of(r) for r in records if r[0] != 1)
    return f"{number} {place} {len(records)} {warned}"


def wrong():
    for section, call, text, want in readings():
        got = said(call, bytes_of(text.encode()))
        if got != want:
            yield f"{section} [{call}] {text}", want, got
    for text, want in (DOCUMENT_01 | READINGS).items():
        number, place, records, _ = read_sheet(bytes_of(text.encode()), WORDS)
        if isinstance(want, tuple):
            if (number, place) != want:
                yield text, want, (number, place)
        elif any((records[r:r + 1] or [NO])[0][w] != v for (r, w), v in want.items()):
            yield text, want, records
    for (text, at, words), want in PARTS.items():
        n, p, records, _, follows, last = read_part(bytes_of(text.encode()), at, words)
        if (n, p, len(records), follows, last) != want:
            yield text, want, (n, p, len(records), follows, last)
    for (text, words), want in SHEETS.items():
        if read_sheet(text.encode(), words)[:2] != want:
            yield text, want, read_sheet(text.encode(), words)[:2]
    head = chain(b'Mo; "a"', 512)[1][1][2][0]
    if (head[3], head[15]) != (5, 4):
        yield 'Mo; "a"', "start 5, place 4 in its part", head
    head = read_feed(b'Mo\n "a"', 8, 64)[2][2]
    if (head[3], head[15]) != (2, 1):
        yield 'Mo\\x0a "a"', "start 2, place 1 in its line", head


def missing_01(path):
    text = open(path).read().split("## Sheets to try")[1].split("\n## ")[0]
    for name in re.findall(r"`([^`]+)`", text):
        if name not in DOCUMENT_01 and "2020-2022" + name not in DOCUMENT_01:
            yield name


def missing_04(path):
    return sorted(set(taken(path)) - set(readings()))


def main():
    if sys.argv[1:2] == ["take"]:
        print("# cases of document 04 for the Asks in force: tools/check_documents.py take")
        for case in taken(sys.argv[2]):
            print("\t".join(case))
        return
    found = list(wrong())
    for text, want, got in found:
        print(f"{text}: {want}, not {got}")
    for path, missing in zip(sys.argv[1:], (missing_01, missing_04)):
        for name in missing(path):
            print(f"not looked at: {name}")
    print(f"{len(readings()) + len(DOCUMENT_01) + len(READINGS) + len(PARTS) + len(SHEETS) + 2} looked at, {len(found)} read otherwise")


if __name__ == "__main__":
    main()
