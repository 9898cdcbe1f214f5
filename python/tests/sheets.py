"""Sheets to be tried: those of the lists in tools/, pieces of them put together, and damage."""
from hypothesis import strategies as st

from conftest import ROOT

LISTS = ("tools/sheets_of_the_rules.txt", "tools/sheets_of_the_wiki.txt", "tools/oracle/sample.txt")


def listed():
    lines = [line for name in LISTS for line in (ROOT / name).read_bytes().split(b"\n")]
    return [line for line in lines if line and not line.startswith(b"#")]


PIECES = [
    *(b"Mo Tu-Fr Sa,Su Mo[1] Fr[-1] Mo-Fr[2] PH SH -1 day +2 days Jan Dec Nov-Feb easter sunset-1:00 (dusk+1:30) week 5 7-53/2 2020 1999-2030/3".split(b" ")),
    *(b"9:00-18:00 22:00-26:00+ 10:00 10:00+ 24/7 off closed open unknown mo JAN Off 25-05 31-30 32 54 9-17 Montag ;|, |\"note\"|\"\xc3\xa4\"".split(b" ")),
    *(b" |;|,|||-|+|/|:|\"|\xff|\xe2\x80\x93|\n|\t".split(b"|")),
    *[b" ", b"; ", b", ", b"||", b"\"x\"", b"\"\xe9\""],
]

_listed = st.sampled_from(listed())
_pieced = st.lists(st.sampled_from(PIECES), max_size=12).map(b"".join)
_several = st.lists(st.one_of(_listed, _pieced), min_size=1, max_size=4).map(b";".join)


@st.composite
def _damaged(draw):
    sheet = draw(_several)
    place = draw(st.integers(0, len(sheet)))
    length = draw(st.integers(0, 3))
    return sheet[:place] + draw(st.one_of(st.binary(max_size=3), st.sampled_from(PIECES))) + sheet[place + length :]


sheets = st.one_of(_several, _damaged(), _pieced)
