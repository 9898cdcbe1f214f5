#!/usr/bin/env python3
"""check_slips.py FILE: compares the numbers and places in a list of slips (rust/lorukinde/tests/slips.txt and meant.txt) with the second reader's. In a list
that tells what was meant (meant.txt) the second reader has to accept each such sheet."""
import sys

import reference

HOWS = {"1": 1, "2": 2, "house": reference.HOUSE}
WORDS = 8192
TELLS_WHAT_WAS_MEANT = 6  # so many fields has a line then
UNKNOWN = "?"  # nobody can say what was meant


def first_refused(sheet, how):
    """the number and the place of the first part that is refused"""
    return next(((r[0], r[1]) for _, r in reference.chain(sheet, WORDS, how) if r[0]), None)


def main():
    lines = open(sys.argv[1], encoding="utf-8").read().split("\n")[:-1]
    slips = [line.split("\t") for line in lines if not line.startswith("#")]
    wrong = [s for s in slips if first_refused(reference.bytes_of(s[1].encode()), HOWS[s[0]]) != (int(s[2]), int(s[3]))]
    for slip in wrong:
        print("read otherwise:", *slip[:4])
    meant = [s for s in slips if len(s) == TELLS_WHAT_WAS_MEANT and s[4] != UNKNOWN]
    refused = [s for s in meant if first_refused(reference.bytes_of(s[4].encode()), HOWS[s[0]])]
    for slip in refused:
        print("refused, though meant:", slip[0], slip[4])
    print(f"{len(slips)} slips, {len(wrong)} read otherwise by the second reader; {len(meant)} sheets that were meant, {len(refused)} refused by it")
    return 1 if wrong or refused or not slips else 0


if __name__ == "__main__":
    sys.exit(main())
