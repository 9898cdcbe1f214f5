#!/usr/bin/env python3
"""Reads many sheets by the Rust and by ours, and says where they differ.

    compare.py [--seed S] [--count N] [--sheets FILE] [--digits] [--oracle PROGRAM] [--ours COMMAND] [--whole]

--ours is any command that takes a file of sheets, one a line, and writes for each four numbers (number, place, records, warnings) and then
its records, 16 words a line. Every sheet counts as agreed, as agreed after a listed difference (docs/DIFFERENCES.md), or as unlisted; the last
are printed, and then the exit code is 1. A listed difference is foretold from the sheet and our answer, and then the Rust's answer must be that.
--digits takes oracle-digits, where only the builders judge numbers. --whole also holds our whole answer, with places, comment starts and what
the Rust cannot be asked, to tools/reference.py, and says every difference. Each side reads all sheets in one process. Edition 1 alone is compared: the
Rust refuses a point in time, and the oracle's grammar has no marks after a range and no offset after a weekday without marks.
"""
import argparse
import collections
import importlib.util
import itertools
import os
import shlex
import subprocess
import sys
import tempfile

import sheets

HERE = os.path.dirname(os.path.abspath(__file__))
ROOT = os.path.join(HERE, "..", "..")
SPAN = b"8 0 0 0 1440 -1 0 0 0 0 0 0 0 0 0 0"  # 00:00-24:00
NUMBER = {b"Syntax": 3, b"GrammarLogic": 4, b"InvalidExtendedTime": 4, b"Overflow": 5, b"InvertedYearRange": 6, b"InvertedWeekRange": 7,
          b'Unsupported("point in time")': 8, b'Unsupported("Easter followed by a day number")': 9}


def reference():
    """tools/reference.py, to be asked another question"""
    spec = importlib.util.spec_from_file_location("reference", os.path.join(HERE, "..", "reference.py"))
    module = importlib.util.module_from_spec(spec)
    spec.loader.exec_module(module)
    return module


# does every rule have a shape, whatever its numbers?
shapes_only = reference()
shapes_only.meaning = lambda kind, g: [kind]

# does the grammar of the oracle take it? Numbers that the builders judge there are made harmless, and 5 to 9 are not asked.
grammar_only = reference()


def held_by_grammar(kind, g, judged=grammar_only.meaning):
    g = {k: b"0" if v and (k == "n" or k.endswith("_n")) else v for k, v in g.items()}
    if (g.get("t_c") or b"").startswith(b"48:") and g["t_c"][3:] < b"60":
        g["t_c"] = b"48:00"
    if g.get("rh") == b"24:00":
        g["rh"] = b"0:00"
    return judged(kind, g)


grammar_only.meaning = held_by_grammar
grammar_only.need = lambda number, good, need=grammar_only.need: need(4, number != 4 or good)

# what is refused first, if the offset after easter and a bare day is not looked at?
no_easter_offset = reference()


def offset_not_judged(g, tag, judged=no_easter_offset.offset_of):
    return [0, 0] if tag == "to" and g.get("bare") and g.get("s_e") else judged(g, tag)


no_easter_offset.offset_of = offset_not_judged

# what do the builders make of it, if the grammar takes numbers of any value?
builders = reference()


def judged_by_builders(kind, g, rest=builders.meaning, need=builders.need):
    """only what the builders look at themselves; a mark that is no index of five is a panic"""
    g = dict(g)
    for e in (g.get("es") or b"").split(b",") if kind == 6 else ():
        ns = [int(x) for x in e.lstrip(b"-").split(b"-") if x]
        need("panic", not ns or ns[0] > ns[-1] or 1 <= ns[0] and ns[-1] <= 5)
    for k, v in g.items():
        if not v:
            continue
        if k == "n" or k.endswith("_n") and not (k == "to_n" and g.get("bare") and g.get("s_e")):
            need(4, int(v) <= 32767)
        if k in ("s_d", "t_d", "bare"):
            need(4, 1 <= int(v) <= 31)
        if kind == 8 and k in ("s_c", "s_o", "t_c", "t_o"):
            h, m = builders.minutes(v)
            need(4, m <= 59 and h * 60 + m <= 2880)
        if k == "rh":
            need(4, v != b"24:00")
        if kind == 3 and k in ("y", "s_y", "t_y") and v == b"0000":
            g[k] = b"70000"  # a present year 0, which is not the absent year of the record
    return [w - 70000 if w >= 70000 else w for w in rest(kind, g)]


builders.meaning = judged_by_builders
builders.need = lambda number, good, need=builders.need: need(number, number == 4 or good)
plain = reference()


# where does the Rust put a bare end day? In the start's month or the next, whether that has such a day or not
def bare_end_of_rust(y, m, d, e):
    return [y, m] if d <= e else list(plain.month_after(y, m))


by_numbers = reference()
by_numbers.bare_end = builders.bare_end = bare_end_of_rust


def placed(record, place):
    """a record with this for its last word, its item's place, which the Rust has not"""
    return record[:record.rindex(b" ") + 1] + place


def as_rust(s, records, listed):
    """our records as the Rust has them"""
    out, i = [], 0
    while i < len(records):
        w = records[i].split()
        items = [placed(r, b"0") for r in records[i + 1:i + 1 + int(w[5])]]
        i += 1 + len(items)
        start, length = int(w[3]), int(w[4])
        if not any(r.startswith(b"8 ") for r in items):  # the Rust has a span of the whole day for a rule without times
            listed.append("no times")
            items = items + [SPAN]
        # the Rust keeps the comment, not its place
        out.append(b'%s "%s" %d 0 0 0 0 0 0 0 0 0 0' % (b" ".join(w[:3]), s[start:start + length], len(items)))
        out += items
    return out


def more_room(reader, s):
    """the answer of a reader whose table does not end at 512 records"""
    number, _, records = reader.sheet(s, 4097)
    return number, [reader.line_of(r).encode() for r in records], reader.warnings(s) if number == 0 else 0


def with_ends(s, records, reader, other):
    """records as `reader` has them, with the year and month of a bare day's end (words 9 and 10) as `other` has them"""
    out = []
    for r, a, b in itertools.zip_longest(records, more_room(reader, s)[1], more_room(other, s)[1], fillvalue=b""):
        words, before, after = r.split(), a.split()[9:11], b.split()[9:11]
        if before != after and words[9:11] == before:
            words[9:11] = after
        out.append(b" ".join(words))
    return out


def expected(s, ours, digits, listed):
    """what the Rust is to answer, and its warnings, from our answer; names the listed differences on the way"""
    number, records, warnings = ours
    if number in plain.NO_SHAPE:  # the Rust has one number for all of these, and no place
        return 3, 0
    if number == 10:  # the Rust has no table
        number, records, warnings = more_room(plain, s)
        if len(records) > 512:
            listed.append("more than 512 records")
    if number == 0:
        rusts = with_ends(s, records, plain, by_numbers)
        if rusts != records:
            listed.append("a bare end day that the month lacks")
        return as_rust(s, rusts, listed), warnings
    if shapes_only.sheet(s)[0] in plain.NO_SHAPE:  # the Rust asks for all shapes first
        listed.append("shapes first")
        return 3, 0
    if not digits and grammar_only.sheet(s)[0] in (4, *plain.NO_SHAPE):  # in the oracle's grammar a number out of range is no shape
        listed.append("ranges in the grammar")
        return 3, 0
    if number == 4 and no_easter_offset.sheet(s)[0] == 9:  # the bare day is refused before its offset is read
        listed.append("offset after easter")
        return 9, 0
    if number == 4 and digits and grammar_only.sheet(s)[0] == 4:
        number, records, warnings = more_room(builders, s)
        if number != 4:  # the builders go past the number
            listed.append(f"not judged by the builders, which say: {number or 'accepted'}")
        return number or as_rust(s, records, []), warnings
    return number, 0


def rust_answer(line):
    fields = line.split(b"\t")
    if fields[0] == b"ok":
        return fields[2:], int(fields[1])
    kind = fields[1]
    return NUMBER.get(kind, NUMBER.get(kind.split(b" ")[0], kind.decode())), 0


def our_answer(lines):
    """the next answer, as its lines"""
    head = next(lines)
    return [head] + list(itertools.islice(lines, int(head.split()[2])))


class Tally:
    def __init__(self, digits):
        self.digits = digits
        self.counts = collections.Counter()
        self.listed = collections.Counter()
        self.first = {}
        self.unlisted = 0
        self.numbers = collections.Counter()
        self.exact = collections.Counter()
        self.kinds = collections.Counter()
        self.warned = 0
        self.seen = set()
        self.held = self.otherwise = 0  # against tools/reference.py

    def hold(self, s, lines):
        """our whole answer against that of tools/reference.py"""
        self.held += 1
        said = [x.encode() for x in plain.sheet_lines(s, 8192)]
        if lines != said:
            self.otherwise += 1
            sys.stdout.buffer.write(b"NOT AS THE REFERENCE  %r\n  reference: %r\n  ours: %r\n" % (s, said, lines))

    def take(self, s, line, lines):
        number, _, _, warnings = map(int, lines[0].split())
        records = lines[1:]
        ours = number, records, warnings
        names = []
        if number == 1 and len(s) > 4096:  # outside the domain of equality
            self.counts["not compared: over 4,096 bytes"] += 1
            return
        if number and line == b"refused\tnot UTF-8":  # the Rust takes text; here no sheet is accepted that is none
            self.counts["not compared: not UTF-8, which the Rust cannot be given, and refused here"] += 1
            return
        self.seen.add(s)
        self.numbers[number] += 1
        self.kinds.update(int(r.split(b" ", 1)[0]) for r in records)
        self.warned += warnings > 0
        same = rust_answer(line) == expected(s, ours, self.digits, names) and (number == 0 or (records, warnings) == ([], 0))
        for name in set(names):
            self.listed[name] += 1
            self.first.setdefault(name, (s, line, number))
        if not same:
            self.unlisted += 1
            if self.unlisted <= 20:
                sys.stdout.buffer.write(b"UNLISTED  %r\n  rust: %s\n  ours: %d %r warnings %d\n" % (s, line, number, records, warnings))
        self.exact[number] += same and not names
        self.counts["unlisted" if not same else "agreed after a listed difference" if names else "agreed exactly"] += 1

    def report(self):
        print(f"{sum(self.numbers.values()):9} compared, {len(self.seen)} of them distinct; sheets with warnings: {self.warned}")
        for name in ("agreed exactly", "agreed after a listed difference", "unlisted"):
            print(f"{self.counts[name]:9} {name}")
        for name, n in sorted(self.listed.items()):
            s, line, number = self.first[name]
            print(f"{n:9} listed: {name} (first: {s[:40]!r}, ours {number}, Rust {line[:60].decode(errors='replace')!r})")
        for name, n in sorted(self.counts.items()):
            if name.startswith("not compared"):
                print(f"{n:9} {name}")
        if self.held:
            print(f"{self.held:9} whole answers held to tools/reference.py, {self.otherwise} of them different")
        print("our numbers:", ", ".join(f"{k}: {n}" for k, n in sorted(self.numbers.items())))
        print("agreed exactly, by our number:", ", ".join(f"{k}: {n}" for k, n in sorted(self.exact.items())))
        print("our records by kind:", ", ".join(f"{k}: {n}" for k, n in sorted(self.kinds.items())))


def all_sheets(args):
    if args.sheets:
        return (line.rstrip(b"\n") for line in open(args.sheets, "rb"))
    made = sheets.Sheets(args.seed)
    return itertools.chain((e.encode() for e in sheets.edges()), (made.sheet() for _ in range(args.count)))


def said(process):
    """the lines that a process writes; all of them are to be read"""
    for line in process.stdout:
        yield line.rstrip(b"\n")
    if process.wait():
        sys.exit(f"stopped with {process.returncode}: {shlex.join(process.args)}")


SHEETS_PER_LINE = 10000  # progress is shown once in so many sheets


def show_progress(sheets_read):
    """how far it is, on a terminal"""
    if sheets_read % SHEETS_PER_LINE == 0 and sys.stderr.isatty():
        print(f"\r{sheets_read} sheets", end="", file=sys.stderr, flush=True)


def erase_progress():
    if sys.stderr.isatty():
        print("\r\033[K", end="", file=sys.stderr, flush=True)


def main():
    p = argparse.ArgumentParser()
    p.add_argument("--seed", type=int, default=1)
    p.add_argument("--count", type=int, default=100000, help="random sheets, beside the edges")
    p.add_argument("--sheets", help="read these sheets, one a line, and make none")
    p.add_argument("--digits", action="store_true", help="the oracle whose grammar takes numbers of any value")
    p.add_argument("--oracle")
    p.add_argument("--ours", default=shlex.join([sys.executable, os.path.join(HERE, "by_reference.py")]))
    p.add_argument("--whole", action="store_true", help="hold our whole answers to tools/reference.py too")
    args = p.parse_args()
    oracle = args.oracle or os.path.join(ROOT, "target", "oracle", "oracle-digits" if args.digits else "oracle")
    tally = Tally(args.digits)
    with tempfile.TemporaryDirectory() as folder:
        path = os.path.join(folder, "sheets")
        with open(path, "wb") as f:
            f.writelines(s + b"\n" for s in all_sheets(args))
        rust = said(subprocess.Popen([oracle, path], stdout=subprocess.PIPE))
        ours = said(subprocess.Popen([*shlex.split(args.ours), path], stdout=subprocess.PIPE))
        for n, s in enumerate(open(path, "rb")):
            show_progress(n)
            s = s[:-1]
            lines = our_answer(ours)
            tally.take(s, next(rust), lines)
            if args.whole:
                tally.hold(s, lines)
        if list(rust) or list(ours):
            sys.exit("more answers than sheets")
    erase_progress()
    tally.report()
    sys.exit(tally.unlisted + tally.otherwise > 0)


if __name__ == "__main__":
    main()
