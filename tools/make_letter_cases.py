#!/usr/bin/env python3
"""Writes crates/letter_cases/stdin and stdout: texts that begin with a quote, in hexadecimal, and for each the place where the characters after that
quote end. The places are told by Python's own decoder, which takes the well-formed sequences of RFC 3629 and no others.

    python3 tools/make_letter_cases.py
"""
import os

HERE = os.path.join(os.path.dirname(os.path.abspath(__file__)), "..", "crates", "letter_cases")

# comments of the rules' documents, whole and broken off, and some with plain letters around
COMMENTS = [
    b'"\xff', b'"\xff\x01"', b'""', b'"', b'', b'"\xff"x', b'"x"', b'"\xff": Mo "x"', b'"a\x01"', b'"""x"',
    b'"\xef\xbf\xbf"', b'"\xef\xbb\xbf"', b'"\xc2\x80"', b'"\xed\xa0\x80"', b'"\xc0\xaf"', b'"\xf4\x90\x80\x80"', b'"\x7f"', b'" ~"', b'"\x1f"',
    '"für; Gäste"'.encode(), '"日本 ≤ 𝄞"'.encode(), '"für'.encode(), '"日本'.encode()[:-1], '"𝄞'.encode()[:-1] + b'"', b'"a\xc3"', b'"a\xc3\xa4\xa4"', b'"a\xe2\x82z"',
]
# the ends of the table's ranges of a first byte, and their neighbours
FIRSTS = [0x7f, 0x80, 0xbf, 0xc0, 0xc1, 0xc2, 0xdf, 0xe0, 0xe1, 0xec, 0xed, 0xee, 0xef, 0xf0, 0xf1, 0xf3, 0xf4, 0xf5, 0xff]
# the same of a byte after it
SECONDS = [0x7f, 0x80, 0x8f, 0x90, 0x9f, 0xa0, 0xbf, 0xc0]
TAILS = [0x7f, 0x80, 0xbf, 0xc0]


def character(text, at):
    """the bytes of the character at a place, 0 for none"""
    for n in (1, 2, 3, 4):
        try:
            if len(text[at:at + n]) == n and len(text[at:at + n].decode("utf-8")) == 1:
                return n
        except UnicodeDecodeError:
            pass
    return 0


def end(text, at):
    """the place after the characters of a comment"""
    while at < len(text):
        n = character(text, at)
        if n == 0 or n == 1 and (text[at] < 32 or text[at:at + 1] == b'"'):
            return at
        at += n
    return at


def sequences():
    """characters, well-formed or nearly so"""
    for a in range(0xc0, 0x100):
        yield from ([a, 0x80, 0x80, 0x80], [a, 0xbf, 0xbf, 0xbf])
    for a in FIRSTS:
        for b in SECONDS:
            yield [a, b, 0x80, 0xbf]
    for a, b in ((0xe0, 0xa0), (0xe1, 0x80), (0xed, 0x9f), (0xef, 0xbf), (0xf0, 0x90), (0xf1, 0x80), (0xf4, 0x8f)):
        for c in TAILS:
            yield from ([a, b], [a, b, c], [a, b, c, 0x80])
            yield from ([a, b, 0x80, d] for d in TAILS)


def texts():
    yield from COMMENTS
    for s in sequences():
        yield b'"' + bytes(s) + b'"'
    for a in FIRSTS:
        yield from (b'"' + bytes([a]), b'"' + bytes([a]) + b'"', b'"' + bytes([a]) + b'z"')


lines = list(dict.fromkeys(t.hex() for t in texts()))
with open(os.path.join(HERE, "stdin"), "w") as f:
    f.writelines(line + "\n" for line in lines)
with open(os.path.join(HERE, "stdout"), "w") as f:
    f.writelines("%s %d\n" % (line, end(bytes.fromhex(line), 1)) for line in lines)
