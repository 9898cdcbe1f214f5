#!/usr/bin/env python3
"""Picks sheets that the Rust accepts, and writes them with the Rust's answers: sample.txt (a sheet a line) and sample.out (the answers, as the program
writes them). crates/cases replays them without the Rust.

    sample.py [--seed S] [--count N] [--oracle PROGRAM]

The records are the oracle's. Three things that the Rust does not say are taken from the sheet's text alone: a rule without times has no span
(docs/DIFFERENCES.md, 1); the comment, which the Rust keeps as bytes, is the last one of its rule; an accepted sheet's place is 0. Sheets of more than 512
records are left out (5). The first line of both files says how they were made.
"""
import argparse
import collections
import itertools
import os
import random
import re
import subprocess
import sys
import tempfile

import sheets

HERE = os.path.dirname(os.path.abspath(__file__))
SPAN = "8 0 0 0 1440 -1 0 0 0 0 0 0 0 0 0 0"  # 00:00-24:00
LONGEST = 120  # bytes of a sheet, so that the list stays small
QUOTED = re.compile(rb'"[^"]*"')
RULE = re.compile(rb"(?:[^;,|]|,(?! ))+")  # of an accepted sheet whose comments are blanked: up to `;`, `, ` or `||`
TIME = re.compile(rb"\d:\d|dawn|sunrise|sunset|dusk", re.I)


def rules_of(s):
    """each rule's beginning, its end, and whether it has times"""
    bare = QUOTED.sub(lambda m: b"x" * len(m.group()), s)
    return [(m.start(), m.end(), bool(TIME.search(m.group()))) for m in RULE.finditer(bare)]


def answer(s, line):
    """the lines of the Rust's answer for an accepted sheet"""
    _, warnings, *fields = line.split(b"\t")
    rules = rules_of(s)
    out = []
    for begin, end, timed in rules:
        separator, state, comment, items = re.fullmatch(rb'1 (\d) (\d) "([^"]*)" (\d+)(?: 0){10}', fields[0]).groups()
        records = [f.decode() for f in fields[1:1 + int(items)]]
        fields = fields[1 + int(items):]
        if not timed:
            assert records.pop() == SPAN, s
        start = 0
        if comment:
            last = [m for m in QUOTED.finditer(s, begin, end)][-1]
            start = last.start() + 1
            assert s[start:last.end() - 1] == comment, s
        out.append(f"1 {int(separator)} {int(state)} {start} {len(comment)} {len(records)}" + " 0" * 10)
        out += records
    assert rules and not fields, s
    return [f"0 0 {len(out)} {int(warnings)}"] + out


def features(lines):
    """what an answer shows: kinds of records, and which words are there, negative or zero; values as far as they are few"""
    yield "rules", min(sum(x.startswith("1 ") for x in lines[1:]), 3)
    yield "warnings", min(int(lines[0].split()[3]), 2)
    for words in (tuple(map(int, x.split())) for x in lines[1:]):
        yield words[0], tuple((w > 0) - (w < 0) for w in words)
        few = {1: (1, 2), 4: (1, 3, 6, 8, 10, 13), 3: (2, 3), 6: (1, 2, 4, 5), 7: (1,), 8: (1, 3, 6)}.get(words[0], ())
        yield from ((words[0], i, words[i]) for i in few)


def main():
    p = argparse.ArgumentParser()
    p.add_argument("--seed", type=int, default=7)
    p.add_argument("--count", type=int, default=2200)
    p.add_argument("--oracle", default=os.path.join(HERE, "..", "..", "target", "oracle", "oracle"))
    args = p.parse_args()

    made = sheets.Sheets(args.seed)
    source = itertools.chain((e.encode() for e in sheets.edges()), (made.sheet() for _ in range(20 * args.count)))
    texts = [s for s in dict.fromkeys(source) if len(s) <= LONGEST]
    with tempfile.NamedTemporaryFile() as f:
        f.write(b"".join(s + b"\n" for s in texts))
        f.flush()
        lines = subprocess.run([args.oracle, f.name], stdout=subprocess.PIPE, check=True).stdout.split(b"\n")[:-1]
    assert len(lines) == len(texts)
    known = [(s, answer(s, line)) for s, line in zip(texts, lines) if line.startswith(b"ok\t")]
    known = [(s, a) for s, a in known if len(a) <= 1 + 512]

    # first the sheets that show something rare, then any
    random.Random(args.seed).shuffle(known)
    seen, rare, rest = collections.Counter(), [], []
    for s, a in known:
        shown = set(features(a))
        (rare if any(seen[x] < 4 for x in shown) else rest).append((s, a))
        seen.update(shown)
    picked = (rare + rest)[:args.count]
    assert len(picked) == args.count >= len(rare), (len(picked), len(rare))

    how = f"# {args.count} sheets that the Rust accepts, and its answers: tools/oracle/sample.py --seed {args.seed} --count {args.count}\n".encode()
    with open(os.path.join(HERE, "sample.txt"), "wb") as f:
        f.write(how + b"".join(s + b"\n" for s, _ in picked))
    with open(os.path.join(HERE, "sample.out"), "wb") as f:
        f.write(how + "".join(x + "\n" for _, a in picked for x in a).encode())
    print(f"{len(texts)} sheets asked, {len(known)} accepted, {len(picked)} picked ({len(rare)} of them for something rare); {len(seen)} things shown")


if __name__ == "__main__":
    main()
