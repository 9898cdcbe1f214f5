#!/usr/bin/env python3
"""What a reading costs: instructions a sheet, ours, a plain C reader's, the Rust's and KOpeningHours', and how the cost grows with the sheet.
Writes the tables of docs/SPEED.md.

    measure.py BENCH BENCH_C STACK [NAME=ORACLE ...] [--emulated PLUGIN] [--kopeninghours PROGRAM]

BENCH_C is bench.c with reader.c in the place of the library, STACK stack.c, PROGRAM kopeninghours.cpp.

Instructions are counted (callgrind; with --emulated by qemu-x86_64 and the plugin insn.c), for two numbers of rounds: the difference, by the rounds and
the sheets between them, is one reading without start and end of the process. It is the same in every run. Seconds, on x86-64 alone, are the best of
several runs, by the same difference.
"""
import argparse
import os
import re
import subprocess
import sys
import tempfile
import time

COMMON = os.path.join(os.path.dirname(os.path.abspath(__file__)), "..", "oracle", "common.txt")
SIZES = (24, 256, 1024, 4096)


def lines_of(path):
    return open(path, "rb").read().split(b"\n")[:-1]


class Meter:
    def __init__(self, plugin):
        self.plugin = plugin
        self.folder = tempfile.TemporaryDirectory()

    def instructions(self, command):
        if self.plugin:
            run = ["qemu-x86_64", "-plugin", self.plugin, "-d", "plugin", *command]
        else:
            run = ["valgrind", "--tool=callgrind", "--callgrind-out-file=/dev/null", *command]
        done = subprocess.run(run, stdout=subprocess.PIPE, stderr=subprocess.PIPE, check=True)
        return int(re.search(rb"(?:Collected ?|instructions): *(\d+)", done.stderr + done.stdout).group(1))

    def number(self, command):
        """the number that a program writes"""
        run = ["qemu-x86_64"] if self.plugin else []
        return int(subprocess.run(run + command, stdout=subprocess.PIPE, check=True).stdout)

    def seconds(self, command):
        begin = time.perf_counter()
        subprocess.run(command, stdout=subprocess.DEVNULL, check=True)
        return time.perf_counter() - begin

    def each(self, words, path, few, many, after=()):
        """instructions of one reading; words is the command before the file and the rounds"""
        counts = [self.instructions([*words, path, str(n), *after]) for n in (few, many)]
        return (counts[1] - counts[0]) / ((many - few) * len(lines_of(path)))

    def best(self, words, path, few, many, tries=9):
        """seconds of one reading"""
        times = [min(self.seconds([*words, path, str(n)]) for _ in range(tries)) for n in (few, many)]
        return (times[1] - times[0]) / ((many - few) * len(lines_of(path)))

    def row(self, name, words, sheets, after=()):
        """writes what one reading of each sheet costs, and returns the most that a byte costs by what it costs in the first"""
        costs = [self.each(words, self.file_of(sheet), 1, 11, after) for sheet in sheets]
        most = max(c / len(s) for c, s in zip(costs, sheets)) * len(sheets[0]) / costs[0]
        print(f"| {name} | " + " | ".join(f"{c:,.0f}" for c in costs) + f" | {most:.2f} times |", flush=True)
        return most

    def file_of(self, sheet):
        path = os.path.join(self.folder.name, f"{len(os.listdir(self.folder.name))}.txt")
        with open(path, "wb") as f:
            f.write(sheet + b"\n")
        return path


# ---- sheets by size
def filled(size, pieces, joint):
    """the pieces that fit, round and round, and blanks up to the size"""
    out, passed, i = b"", 0, 0
    while passed < len(pieces):
        more = (out + joint if out else b"") + pieces[i % len(pieces)]
        i += 1
        out, passed = (more, 0) if len(more) <= size else (out, passed + 1)
    return out + b" " * (size - len(out))


def sheets_by_size(size):
    rules = [rule for sheet in lines_of(COMMON) if b'"' not in sheet for rule in sheet.split(b"; ")]
    yield "common rules, joined by `; `", filled(size, rules, b"; ")
    yield "the shortest rules, `Mo;Mo`", filled(size, [b"Mo"], b";")
    yield "rules of six months, `Jan,Jan,..`", filled(size, [b",".join([b"Jan"] * 6)], b";")  # as many records in 24 bytes as are read once
    yield "one rule: times", b"Mo-Su " + filled(size - 6, [b"08:00-12:00", b"13:00-17:30"], b",")
    yield "one rule: dates", filled(size, [b"Dec 24-26", b"2025 Jan 1", b"easter +1 day"], b",")
    yield "one rule: marks of a weekday", (b"Mo[" + filled(size - 4, [b"1", b"2", b"3-5", b"-1"], b",").rstrip() + b"]").ljust(size)
    yield "one rule: a comment", b'off "' + b"c" * (size - 6) + b'"'
    yield "refused at its last byte", filled(size - 3, rules, b"; ") + b"; x"


def main():
    p = argparse.ArgumentParser()
    p.add_argument("bench")
    p.add_argument("bench_c")
    p.add_argument("stack")
    p.add_argument("rust", nargs="*")
    p.add_argument("--emulated", metavar="PLUGIN")
    p.add_argument("--kopeninghours", metavar="PROGRAM")
    args = p.parse_args()
    meter = Meter(args.emulated)
    ours, plain = [args.bench], [args.bench_c]
    rusts = [(name, [path, "bench"]) for name, _, path in (r.partition("=") for r in args.rust)]

    sheets = lines_of(COMMON)
    for words in [ours, plain] + [words for _, words in rusts]:
        if meter.number([*words, COMMON, "1"]) != len(sheets):
            sys.exit(f"not every common sheet is accepted by {words}")
    print(f"{len(sheets)} common sheets, {sum(map(len, sheets)) / len(sheets):.1f} bytes on average:\n")
    print("| reader | instructions a sheet | microseconds a sheet |\n|---|---|---|")
    figures = []
    readers = [("`lorukinde_read_sheet`", ours, 10, 110), ("a plain C reader, `tools/speed/reader.c`", plain, 10, 110)]
    others = list(rusts)
    if args.kopeninghours:
        taken = meter.number([args.kopeninghours, COMMON, "1"])
        others.append((f"KOpeningHours, which takes {taken} of them", [args.kopeninghours]))
    for name, words, few, many in readers + [(name, words, 2, 12) for name, words in others]:
        figures.append(meter.each(words, COMMON, few, many))
        wall = "" if args.emulated else f"{1e6 * meter.best(words, COMMON, few, 40 * many):.2f}"
        print(f"| {name} | {figures[-1]:,.0f} | {wall} |", flush=True)

    print("\nOther readings of these sheets:\n\n| reading | instructions a sheet |\n|---|---|")
    for reading in ("parts", "edition-2", "house", "feed"):
        print(f"| {reading} | {meter.each(ours, COMMON, 10, 110, [reading]):,.0f} |", flush=True)

    print("\nInstructions of one reading by the sheet's size in bytes:\n")
    print("| sheet | " + " | ".join(f"{n:,}" for n in SIZES) + " | a byte, at most, by one at 24 |\n|---|" + "---|" * (len(SIZES) + 1))
    growth = []
    for rows in zip(*map(sheets_by_size, SIZES)):
        for sheet in (sheet for _, sheet in rows):
            if meter.number([*ours, meter.file_of(sheet), "1"]) == sheet.endswith(b"x"):
                sys.exit(f"accepted or not: {sheet}")
        growth.append(meter.row(rows[0][0], ours, [sheet for _, sheet in rows]))
    for rows in list(zip(*map(sheets_by_size, SIZES)))[:2]:
        meter.row(rows[0][0] + ", part by part", ours, [sheet for _, sheet in rows], ["parts"])

    def asked(what, seen, good):
        print(f"| {what} | {seen} | {'yes' if good else 'no'} |")
    print("\n| asked | seen | met |\n|---|---|---|")
    for limit in (5000, 2500, 1500, 1300):
        asked(f"at most {limit:,} instructions a common sheet", f"{figures[0]:,.0f}", figures[0] <= limit)
    asked("as many as plain C", f"{figures[0] / figures[1]:.2f} times", figures[0] <= figures[1])
    for (name, _), figure in zip(rusts, figures[2:]):
        asked(f"at least 10 times fewer than {name}", f"{figure / figures[0]:.1f} times", figure >= 10 * figures[0])
    asked("a byte of a longer sheet costs at most twice one of 24", f"at most {max(growth):.2f} times", max(growth) <= 2)
    stack = meter.number([args.stack, COMMON])
    asked("at most 4 kilobytes of stack", f"{stack:,} bytes", 0 < stack <= 4096)


if __name__ == "__main__":
    main()
