"""The package's answers beside the Rust crate's: same numbers, records, types, sentences."""
import pytest
from hypothesis import given
from hypothesis import strategies as st

import lorukinde
import rust
from sheets import listed, sheets


def check(answers, manner, sheet):
    wanted = answers.of(manner, sheet)
    read = lorukinde.read(sheet, manner)
    # A feed's only line is the sheet, if it has no byte 10; else the crate's own answer for the whole is taken.
    lines = list(lorukinde.read_feed(sheet + b"\n"))
    if b"\n" in sheet:
        answered, wanted = rust.answer(read, lines[0].reading).splitlines()[:-1], wanted.splitlines()[:-1]
        assert answered == wanted
    else:
        assert rust.answer(read, lines[0].reading) == wanted


@given(st.sampled_from(list(lorukinde.Manner)), sheets)
def test_any_sheet(answers, manner, sheet):
    check(answers, manner, sheet)


EDGES = [b"", b";", b" ", b"\n", b"Mo" + b" " * 4094, b"Mo" + b" " * 4095, b";" * 4096, b"Mo;" * 2000, b"\"" + b"\xff" * 10 + b"\""]


@pytest.mark.parametrize("sheet", EDGES, ids=range(len(EDGES)))
@pytest.mark.parametrize("manner", lorukinde.Manner)
def test_edges(answers, manner, sheet):
    check(answers, manner, sheet)


def test_a_feed_is_its_lines():
    sheets = listed()
    for feed in (b"\n".join(sheets), b"\n".join(sheets) + b"\n"):
        read = lorukinde.read_feed(feed)
        lines = feed.split(b"\n")[: len(read)]
        assert len(list(read)) == len(read) == feed.count(b"\n") + (not feed.endswith(b"\n"))
        for line, sheet in zip(read, lines):
            assert feed[line.range.start : line.range.stop] == sheet
            alone = next(iter(lorukinde.read_feed(sheet)))
            assert line.reading == alone.reading
