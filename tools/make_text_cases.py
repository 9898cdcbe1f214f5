#!/usr/bin/env python3
"""Makes the cases of Ask 6: `make_text_cases.py SEED NUMBER` writes so many lines for second_writer.py, each the bytes of an output, a table, and the lent sheet.
Tables are the records of accepted sheets as they are; with one or two words changed, often to the edge of a range; with two records exchanged; and two tables as one.
Before them stand the tables of document 04, sections 6 and 15, outputs of every size around a text's, comments out of another sheet, and 409 and 410 single years."""
import os
import random
import sys

from reference import bytes_of, sheet
from second_writer import text_of

TOOLS = os.path.dirname(os.path.abspath(__file__))
EDGES = [0, 1, -1, 2, 3, 4, 5, 6, 7, 8, 9, 12, 13, 31, 32, 53, 54, 255, 256, 1439, 1440, 1441, 1899, 1900, 2880, 2881, 9999, 10000, 10001, 32767, 32768,
         -7, -8, -1440, -1441, -32767, -32768, 65536, 2147483647, -2147483648]
DOCUMENT_04 = [
    ("{1 0 0 0 0 2 / 2 2020 2020 1 / 3 0 1 1}", ""), ("{1 0 0 0 0 1 / 6 1 5 1 31 31}", ""), ("{1 0 0 0 0 1 / 6 1 1 0 0 0}", ""),
    ("{1 0 0 0 0 1 / 4 1 9999 12 5 0 0 0 1 10000 1 5}", ""), ("{1 0 0 0 0 1 / 4 2 9999 12 1 5 0 0 1 10000 1 1}", ""), ("{1 0 0 7}", ""), ("{1 0 0 -7}", ""),
    ("{1 0 0 0 2}", "ab"), ("{1 0 0 1 2}", "a\"b\""), ("{1 0 0 0 1}", "\\xc3\\xa9"), ("{1 0 0 0 2}", "\\xc3\\xa9"), ("{1 0 0 1 2}", "ab"), ("{1 0 0 1 -1}", "ab"),
    ("{1 0 0 0 0 2 / 3 0 1 1 / 2 2020 2020 1}", ""), ("{1 0 0 0 0 3 / 6 1 1 0 31 31 / 7 1 / 6 2 2 0 31 31}", ""), ("{1 1}", ""), ("{1 0 0 0 0 1 / 2 2020 2022 3}", ""),
    ("{1 0 0 0 0 1 / 8 0 600 0 720 30 1}", ""), ("{1 0 0 0 0 1}", ""), ("{1 / 0}", ""), ("{}", ""), ("{1 0 0 0 0 0 0 0 0 0 0 0 0 0 0 -5}", ""), ("{1 0 0 0 0 0 0 0 0 0 0 0 0 0 0 0 0}", ""),
    ("{1 0 0 0 0 1 / 8 0 600 0 600 -1 0 1}", ""), ("{1 0 0 0 2147483647}", "ab"), ("{1 0 0 2147483647 1}", "ab"), ("{1 0 1 0 1}", "\\x1f"), ("{1 0 2 1 1}", "a \\x22"),
]
ROOM = 4096


def said(table):
    """a table as document 04 writes it; the words of a record that are 0 to its end are left out, but for a table's last record of more or fewer words"""
    records = [table[k:k + 16] for k in range(0, len(table), 16)]
    texts = []
    for record in records:
        last = max((k for k, w in enumerate(record) if w), default=0)
        texts.append(" ".join(map(str, record[:last + 1])))
    return "{" + " / ".join(texts) + "}"


def shown(raw):
    return "".join(chr(b) if 32 <= b < 127 and b != 92 else f"\\x{b:02x}" for b in raw)


def accepted():
    for name in ["sheets_of_the_rules.txt", "sheets_of_the_wiki.txt", "readings.txt"]:
        for line in open(os.path.join(TOOLS, name), "rb").read().split(b"\n"):
            raw = bytes_of(line.split(b"\t")[2] if name == "readings.txt" and line.count(b"\t") == 3 else line)
            for edition in (1, 2):
                number, _, records = sheet(raw, 512, edition)
                if number == 0:
                    yield raw, [int(w) for r in records for w in r]


def changed(table, sheets):
    how = random.random()
    table = list(table)
    if how < 0.6:
        for _ in range(random.choice([1, 1, 1, 2])):
            k = random.randrange(len(table))
            table[k] = random.choice(EDGES) if random.random() < 0.4 else max(-2 ** 31, min(2 ** 31 - 1, table[k] + random.choice([-1, 1, -2, 2])))
    elif how < 0.7 and len(table) > 16:
        a, b = random.sample(range(len(table) // 16), 2)
        table[a * 16:a * 16 + 16], table[b * 16:b * 16 + 16] = table[b * 16:b * 16 + 16], table[a * 16:a * 16 + 16]
    elif how < 0.8:
        table += random.choice(sheets)[1]
    return table


def main():
    random.seed(int(sys.argv[1]))
    sheets = list(accepted())
    lines = [(ROOM, table, lent) for table, lent in DOCUMENT_04]
    for years in (409, 410):
        lines.append((5000, said([1, 0, 0, 0, 0, years] + [0] * 10 + ([2, 2020, 2020, 1] + [0] * 12) * years), ""))
    for raw, table in random.sample(sheets, 40):
        size = len(text_of(table, raw) or b"")
        lines += [(max(0, size + d), said(table), shown(raw)) for d in (-2, -1, 0, 1)]
        lines.append((ROOM, said(table), shown(raw[::-1])))
    while len(lines) < int(sys.argv[2]):
        raw, table = random.choice(sheets)
        lines.append((ROOM, said(changed(table, sheets)), shown(raw)))
    sys.stdout.buffer.write(b"".join(b"%d\t%s\t%s\n" % (room, table.encode(), lent.encode()) for room, table, lent in lines))


if __name__ == "__main__":
    main()
