#!/usr/bin/env python3
"""Writes the cases of tallies, tools/cases_tallies.txt: tables with every word at its range's edges and one beyond, for every kind and form; heads and items that do not
match; answers that do and do not fit; counts at their limit; tallies joined. Their answers: reference.py tallies tools/cases_tallies.txt > tools/cases_tallies.out.

    make_tally_cases.py > tools/cases_tallies.txt
"""
from check_documents import readings
from reference import COUNTS, MOST, ROWS, SHEET_NUMBERS, whole_row

WORD = range(-2 ** 31, 2 ** 31)


def words_of(record):
    """the record's words, without the zeros at its end"""
    last = max(i for i, w in enumerate(record) if w or i == 0)
    return " ".join(map(str, record[:last + 1]))


def edges(allowed):
    """the first and the last of each run of allowed numbers, and the numbers beside them"""
    runs = [allowed[0], allowed[-1]] if isinstance(allowed, range) else allowed
    near = {x + d for x in runs for d in (-1, 0, 1)}
    return sorted(x for x in near if x in WORD and (isinstance(allowed, range) or x in allowed or x - 1 in allowed or x + 1 in allowed))


def accepted(records, tally=""):
    """the case of an accepted answer with these records"""
    return f"{tally};0 0 {len(records)} 0;{'/'.join(words_of(r) for r in records)}"


def with_head(item):
    return [[1, 0, 0, 0, 0, 1] + [0] * 10, item]


def edge_cases():
    for kind, rows in ROWS.items():
        for row in rows:
            row = whole_row(row)
            base = [kind] + [r[len(r) // 2] if isinstance(r, tuple) and len(r) > 1 else r[0] for r in row]
            if kind == 1:
                base[5] = 0
            for i, allowed in enumerate(row, 1):
                few = edges(allowed) if len(allowed) < 100 or isinstance(allowed, range) else edges((0,)) + edges((1900,)) + edges((allowed[-1],))
                for value in sorted({x for x in few if x in WORD} | {WORD[0], WORD[-1]}):
                    record = base[:i] + [value] + base[i + 1:]
                    yield accepted([record] if kind == 1 else with_head(record))
    for kind in (-1, 0, 1, 9, WORD[0], WORD[-1]):
        yield accepted(with_head([kind] + [0] * 15))


HEAD = [1] + [0] * 15
MONDAY = [6, 1, 1, 0, 31, 31] + [0] * 10


def head_of(items):
    return [1, 0, 0, 0, 0, items] + [0] * 10


def rule_cases():
    yield accepted([MONDAY])
    for said in range(4):
        for there in range(4):
            yield accepted([head_of(said)] + [MONDAY] * there)
            yield accepted([HEAD, head_of(said)] + [MONDAY] * there + [HEAD])
    yield accepted([head_of(2), MONDAY, HEAD, MONDAY])
    for left in ("1 0 0.", "1 0 0 0 0 0 0 0 0 0 0 0 0 0 0.", "1/1."):
        for count in (0, 1, 2):
            yield f";0 0 {count} 0;{left}"


def answer_cases():
    for number in [*range(0, 40), 255, 256, 4096, 2 ** 31, MOST]:
        for place in (0, 7, MOST):
            yield f";{number} {place} 0 0;"
        yield f";{number} 0 1 0;1"
        yield f";{number} 0 1 3;1"
        yield f";{number} 0 0 1;"
        yield f";{number} 0 1 0;"
    for count in (0, 2, MOST):
        yield f";0 0 {count} 0;1"
    for warned in (1, 1000000, MOST):
        yield f";0 5 1 {warned};1"


def limit_cases():
    table = "/".join(words_of(r) for r in [head_of(3), MONDAY, [6, 2, 3, 0, 5, 0] + [0] * 10, [8, 0, 600, 0, 720, -1] + [0] * 10])
    for place in range(COUNTS):
        for count in (MOST, MOST - 1, MOST - 11, MOST - 12, MOST - 13):
            yield f"{place}={count};0 0 4 1;{table}"
            yield f"{place}={count};0 0 4 1;{table}/1"  # 16 before 15
            yield f"{place}={count};3 9 0 0;"
            yield f"{place}={count};join;{place}={MOST - count}"
            yield f"{place}={count};join;{place}={MOST - count + 1}"
    for number in sorted(SHEET_NUMBERS - {0}):
        yield f"{number}={MOST};{number} 0 0 0;"
        yield f"24={MOST};{number} 0 0 0;"
        yield f"25={MOST} 26={MOST} 33={MOST};{number} 0 0 0;"
    full = " ".join(f"{i}={MOST}" for i in range(COUNTS))
    half = " ".join(f"{i}={i * 1000003 + 7}" for i in range(COUNTS))
    for one, other in ((full, ""), ("", full), (full, full), (half, half), (half, ""), ("", half), ("", ""), (full, "17=1"), ("21=1", full)):
        yield f"{one};join;{other}"


def document_cases():
    """the tables of document 04 whose answer no later request has changed"""
    for _, call, text, _ in readings():
        if call.endswith("fit") and int(call.split()[0]) not in (6, 8):
            yield f";0 0 {text.count('/') + 1} 0;{text.replace(' / ', '/')}"


if __name__ == "__main__":
    for cases in (document_cases(), edge_cases(), rule_cases(), answer_cases(), limit_cases()):
        for case in dict.fromkeys(cases):
            print(case)
