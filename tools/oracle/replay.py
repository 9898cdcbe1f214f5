#!/usr/bin/env python3
"""Writes what crates/cases is to write: for the sheets of sample.txt the Rust's answers of sample.out, for every other case that of tools/reference.py.
A bare end day that the Rust puts into a month that lacks it is put where it is here (docs/DIFFERENCES.md, 6), and an item's place, which the Rust
does not say, is that of tools/reference.py.

    python3 tools/oracle/replay.py crates/cases/stdin > crates/cases/stdout

Names each sheet of the sample for which tools/reference.py says something else, or which is no case; then the exit code is 1. Needs no Rust.
"""
import itertools
import os
import sys

HERE = os.path.dirname(os.path.abspath(__file__))
sys.path.insert(0, os.path.join(HERE, ".."))
import compare
import make_cases
import reference


def with_places(s, records):
    """the Rust's records, with the last words of tools/reference.py"""
    ours = compare.more_room(compare.plain, s)[1]
    return [compare.placed(r, o.split()[15]) for r, o in zip(records, ours)] if len(ours) == len(records) else records


def sample():
    """each case of the sample, and the lines of its answer; how many of them have an end moved"""
    lines = iter(open(os.path.join(HERE, "sample.out"), "rb").read().split(b"\n")[1:-1])
    answers, moved = {}, 0
    for raw in make_cases.sample():
        head = next(lines)
        records = list(itertools.islice(lines, int(head.split()[2])))
        ours = compare.with_ends(raw[6:], records, compare.by_numbers, compare.plain)
        moved += ours != records
        answers[raw] = [head, *with_places(raw[6:], ours)]
    assert next(lines, None) is None, "more answers than sheets"
    return answers, moved


def main():
    (answers, moved), wrong = sample(), 0
    waiting = set(answers)
    for raw in open(sys.argv[1], "rb").read().split(b"\n")[:-1]:
        said = [line.encode("latin-1") for line in reference.case(raw)]
        if said != answers.get(raw, said):
            sys.stderr.write(f"{raw}\n  Rust: {answers[raw]}\n  reference: {said}\n")
            wrong += 1
        waiting.discard(raw)
        sys.stdout.buffer.write(b"".join(line + b"\n" for line in [raw, *answers.get(raw, said)]))
    for raw in waiting:
        sys.stderr.write(f"{raw}: no case\n")
    sys.stderr.write(f"{len(answers)} answers of the Rust replayed, {moved} of them with a bare end day moved; tools/reference.py says otherwise for {wrong}\n")
    sys.exit(wrong + len(waiting) > 0)


if __name__ == "__main__":
    main()
