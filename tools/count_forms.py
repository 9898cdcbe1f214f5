#!/usr/bin/env python3
"""Counts the places in crates/*/src that docs/DESIGN-PASS.md speaks of, point by point.

    python3 tools/count_forms.py [-v] [COMMIT]

Without a commit it reads the files as they stand; -v prints each place."""
import re
import subprocess
import sys

verbose = "-v" in sys.argv
commits = [a for a in sys.argv[1:] if a != "-v"]


def sources():
    """Each .rt file of crates/*/src: its path and its text."""
    if commits:
        listed = subprocess.run(["git", "ls-tree", "-r", "--name-only", commits[0], "crates"], check=True, capture_output=True, text=True).stdout
        for path in listed.split("\n"):
            if re.fullmatch(r"crates/\w+/src/.*\.rt", path):
                yield path, subprocess.run(["git", "show", f"{commits[0]}:{path}"], check=True, capture_output=True, text=True).stdout
    else:
        listed = subprocess.run(["git", "ls-files", "-co", "--exclude-standard", "crates"], check=True, capture_output=True, text=True).stdout
        for path in sorted(listed.split("\n")):
            if re.fullmatch(r"crates/\w+/src/.*\.rt", path):
                try:
                    yield path, open(path).read()
                except FileNotFoundError:
                    pass


FILES = list(sources())


def items(word):
    """Each struct or enum: its path, its name and its body."""
    for path, text in FILES:
        for m in re.finditer(r"^(?:pub )?%s (\w+)[^{;]*\{(.*?)^\}" % word, text, re.M | re.S):
            yield path, m.group(1), m.group(2)


def lines(pattern):
    for path, text in FILES:
        for k, line in enumerate(text.split("\n"), 1):
            if re.search(pattern, line) and not line.strip().startswith("//"):
                yield f"{path}:{k}: {line.strip()}"


def functions():
    """Each function: its path, its name, its parameters, its clauses and its body."""
    for path, text in FILES:
        for m in re.finditer(r"^( *)(?:pub )?(?:const )?fn (\w+)(?:<.*?>)?\((.*?)\)(.*?)^\1\{\n(.*?)^\1\}", text, re.M | re.S):
            yield path, m.group(2), m.group(3), m.group(4), m.group(5)


# ---- point 1
# A variant that says "no value" or "refused", as Option and Result have one.
EMPTY = r"^    (Missing|Nothing|Not|Unknown|Nowhere|Free|Never|Absent|Over|Finished|No|Refused\([^)]*\)),$"
# An enum of which such a variant is one of a scale, and not the lack of a value.
SCALES = {"Touch"}


def own_options():
    for path, name, body in items("enum"):
        if name not in SCALES and re.search(EMPTY, body, re.M):
            yield f"{path}: enum {name}"


def flags_with_values():
    """A struct that holds a value and the place after it, or a value and a flag or a number that says whether it counts."""
    for path, name, body in items("struct"):
        if re.search(r"next: Cursor", body) and name.endswith("Then"):
            yield f"{path}: struct {name}"
        elif re.search(r"^    (pub )?(fits|listed|good|sheets): bool", body, re.M):
            yield f"{path}: struct {name}"
        elif re.search(r"^    (pub )?failure: Option", body, re.M):
            yield f"{path}: struct {name}"
        elif re.search(r"^    (pub )?number: (u8|u32),", body, re.M):
            yield f"{path}: struct {name}"


def codes():
    """A constant that names a kind or a refusal by a number, and a field or a parameter that holds such a number."""
    yield from lines(r"^(pub )?const (TOO_LONG|NO_\w+|RANGE|WEEK_STEP|\w+_INVERTED|POINT_IN_TIME|EASTER_DAY|EMPTY_RULE|BROKEN_QUOTE|ILL_FORMED_COMMENT|UNKNOWN_EDITION|HOUSE_\w+|FEW_\w+|SHORT_LIST): (u8|u32) = \d")
    yield from lines(r"^(pub )?const (WEEKDAY|MONTH|EVENT|EASTER|MODIFIER|HOLIDAY|WEEK|DAY|MONTH_DAYS): u8 = \d")
    yield from lines(r"^    pub (kind|separator|state): u8,")
    yield from lines(r"^pub fn kind_of\(.*-> u8")
    for path, name, params, clauses, body in functions():
        for what in re.findall(r"\b(?:kind|name|number|event|separator|state): u8|\bset: u16", params):
            yield f"{path}: {name}: {what}"


# ---- point 2
TWINS = [
    ("a record stored in words, and in bytes", r"fn (keep_words|keep_bytes)\("),
    ("words stored, and bytes", r"fn (store|store_words|store_bytes)\("),
    ("two pens", r"^pub struct Pen\b"),
    ("a number without its sign", r"fn size\("),
    ("years and weeks of a record", r"fn (years_of|weeks_of|years_touch|weeks_touch)\("),
    ("a number cut to a width", r"fn (year_in|part_in|half_at|byte_at|signed_at|half|signed_half)\(|fn byte\(x"),
    ("the meaning of years, and of weeks", r"fn (year_meaning|week_meaning)\("),
    ("a walk over a rule's items", r"fn (rule_touch|rule_can)\("),
    ("months by halves", r"fn (early_month|late_month|first_half|second_half)\("),
    ("a time in range", r"fn (near|good_time)\("),
    ("input read until it ends", r"fn (read_full|read_input)\("),
    ("no name calls for a warning", r"fn (quiet|no_odd|bare_odd)\("),
    ("no comment", r"fn no_comment\("),
    ("flags of an entry, and of a weekday", r"fn bit\("),
    ("a sheet read into words, and into bytes", r"fn (sheet_words|sheet_bytes|part_words|part_bytes)\("),
    ("a feed read into words, and into bytes", r"fn (read_feed|read_feed_bytes)\("),
]


def twins():
    """Every function or type beyond the first of each group."""
    for what, pattern in TWINS:
        found = list(lines(pattern))
        for place in found[1:]:
            yield f"{what}: {place}"


# ---- point 3
def hand_counted():
    """A loop that tests and raises an index of its own, or indexes by a range."""
    for path, name, params, clauses, body in functions():
        if re.search(r"^ *while \w+(\.\w+)? < ", body, re.M) and re.search(r"^ *\w+ \+= 1;", body, re.M):
            yield f"{path}: {name}"
        elif re.search(r"^ *(while|'?\w*:? ?loop)\b", body, re.M) and re.search(r"\b(at|from|j|k|slot) (\+?=)", body):
            yield f"{path}: {name}"
        elif re.search(r"for (\w+) in 0\.\.", body) and re.search(r"\[[^\]]*\b(i|k)\b[^\]]*\]", body):
            yield f"{path}: {name}"


# ---- point 4
BY_HAND = r"fn (same|same_day|same_date|is_zero|size|bit|flag_of|wide|widened|word_of|bits_of|touch_number|best|worst|once|is_never|first_of|edition_of|year_in|part_in|year_of|has_word|number_fits|wrapped|signed)\("


# ---- point 5
def facts():
    """The text of a `requires` that three functions or more have, and parameters that three or more take together."""
    seen = {}
    for path, name, params, clauses, body in functions():
        for m in re.finditer(r"requires (?:\w+ )?\{ (.*?) \}", clauses):
            seen.setdefault(m.group(1), []).append(f"{path}: {name}")
    for fact, places in sorted(seen.items()):
        if len(places) >= 3:
            for place in places:
                yield f"requires {fact}: {place}"


def together():
    groups = [
        r"words: &mut \[i32\],\s*bytes: &mut \[u8\]", r"words: &\[i32\],\s*bytes: &\[u8\]",
        r"kind: (u8|NameKind),\s*(first|value): u8", r"start: Time,\s*odd(_start)?: bool", r"first: u8,\s*odd: bool",
        r"p: Pen,\s*out: &mut \[u8\]", r"w: \[i32; 16\],\s*k: usize",
    ]
    for path, name, params, clauses, body in functions():
        for g in groups:
            if re.search(g, params):
                yield f"{path}: {name}: {g}"


# ---- point 6
def buffers():
    yield from lines(r"\[i32; 16\] \{|b\"(mo tu|jan feb|PH SH)")
    yield from lines(r"^pub struct (Pen|Marked)\b")
    yield from lines(r"table: &(mut )?\[i32\], n: usize|from: &\[i32\], n: usize")


# ---- point 7
def switches():
    yield from lines(r"match kind_of\(")


POINTS = [
    ("1a own enums of the shape of Option or Result", own_options),
    ("1b a flag or a number with a value beside it", flags_with_values),
    ("1c numbers for kinds and refusals", codes),
    ("2 twins", twins),
    ("3 loops that count an index by hand", hand_counted),
    ("4 equality, order, conversion by hand", lambda: lines(BY_HAND)),
    ("5a facts in the contracts of three functions or more", facts),
    ("5b parameters that travel together", together),
    ("6 buffers with a length beside, packed names", buffers),
    ("7 switches on which step to run", switches),
]

for title, find in POINTS:
    found = list(find())
    print(f"{len(found):4} {title}")
    if verbose:
        for place in found:
            print("       ", place)
