#!/usr/bin/env python3
"""Writes the cases of crates/cases: the sheets of the three lists below, the systematic ones made here, and tools/oracle/sample.txt.

    python3 tools/make_cases.py > crates/cases/stdin
    python3 tools/oracle/replay.py crates/cases/stdin > crates/cases/stdout      at most 1 MiB, where rt cuts what a program writes
    python3 tools/make_cases.py count         how many of each origin

and the cases of calls that crates/cases does not make, which the Rust tests replay: NAME is feeds, editions, house (house sheets) or damage (sheets damaged
after a `;`).

    python3 tools/make_cases.py NAME > tools/cases_NAME.txt
    python3 tools/reference.py cases tools/cases_NAME.txt > tools/cases_NAME.out

sheets_of_the_rules.txt has the sheets of the rules and of document 03, readings.txt those of document 04 (its form: check_documents.py), sheets_of_the_wiki.txt
examples of the OpenStreetMap wiki's pages on opening hours, as far as they are remembered, sample.txt sheets whose answers are the Rust's own
(tools/oracle/README.md).
A case's form is in reference.py, `case`. A line cannot hold byte 10 (three sheets of the readings have it, and are left out); every other byte stands in some sheet.
"""
import os
import re
import sys

WORDS = 512
TOOLS = os.path.dirname(os.path.abspath(__file__))
RULES, READINGS, WIKI = "sheets_of_the_rules.txt", "readings.txt", "sheets_of_the_wiki.txt"


def line(sheet, mode="S", words=WORDS, part=" "):
    raw = sheet if isinstance(sheet, bytes) else re.sub(r"\\x([0-9a-f]{2})", lambda m: chr(int(m.group(1), 16)), sheet).encode("latin-1")
    return b"%04d%s%s" % (words, mode.encode(), part.encode()) + raw


def known(name):
    return open(os.path.join(TOOLS, name)).read().split("\n")[:-1]


def sheets_of(name):
    return [line(s, "A") for s in known(name)]


def sheets_of_readings():
    """the sheets of readings.txt; of a feed, which has byte 10, and of a table none"""
    fields = [x.split("\t") for x in known(READINGS)[1:]]
    return [sheet for _, call, sheet, _ in fields if "feed" not in call and "fit" not in call]


def readings():
    return [line(s, "A") for s in sheets_of_readings()]


# ---- every piece after every piece
PIECES = ["24/7", '"c"', "2020", "2020-2022/2", "Jan", "Jan 5", "2021 Jan 5-7", "easter", "week 3", "Mo", "Mo[1]", "Tu-Th", "PH", "10:00-12:00", "sunset+", "off", 'open "d"']
JOINTS = [" ", ",", ": "]


def transitions():
    return [line(a + j + b) for a in PIECES for b in PIECES for j in JOINTS]


def joints():
    """what stands between two pieces or rules, odd ones among them"""
    odd = ["", "  ", " ,", ", ", " , ", ",  ", ",,", ";", " ; ", ";;", "; ;", "||", " || ", "|", "|||", "|| ||", ":", " :", " : ", "::", "-", " - ", "+", "/", ",;", ";,", ".", "\\x09", "\\x0d", "\\xa0"]
    return [line(a + j + b, "A") for j in odd for a, b in [("Mo", "Tu"), ("2020", "Jan"), ("10:00-12:00", "13:00-14:00"), ("off", '"c"')]]


def triples():
    """all of a rule in its order, and the same with a piece left out or changed with its neighbour"""
    all_of = ["2020-2021", "Jan 5-Feb 6", "week 3-5", "Mo,PH", "10:00-12:00", 'off "c"']
    out = [all_of]
    out += [all_of[:i] + all_of[i + 1:] for i in range(6)]
    out += [all_of[:i] + [all_of[i + 1], all_of[i]] + all_of[i + 2:] for i in range(5)]
    out += [all_of[:i] + [all_of[i]] + all_of[i:] for i in range(6)]
    lines = [line(" ".join(x)) for x in out]
    return lines + [line(" ".join(all_of[:i]) + ": " + " ".join(all_of[i:])) for i in range(1, 6)]


# ---- every range, below, at and above its ends
def ranges():
    out = []

    def each(numbers, *forms):
        out.extend(f % n for f in forms for n in numbers)
    each(["0000", "1899", "1900", "1901", "9998", "9999"], "%s", "%s+", "%s-9999", "1900-%s", "%s Jan", "%s Jan 5", "%s easter", "%s Jan Mo[1]", "Jan 5-%s Feb 6", "2020,%s")
    each(["0", "1", "9", "00000", "32766", "32767", "32768", "99999"], "1900-9999/%s", "week 1-53/%s", "PH +%s days", "SH -%s day", "Jan 5 +%s days", "Jan 5-6 -%s days", "Mo[1] +%s days")
    each(["254", "255", "256", "257", "0255", "00256"], "week 1-53/%s", "week 5-1/%s")
    each(["0", "00", "1", "01", "30", "31", "32", "99"], "Jan %s", "Jan 5-%s", "Jan 5-Feb %s", "Jan Mo[1]-%s", "easter-%s")
    each(["0", "00", "1", "01", "52", "53", "54", "99"], "week %s", "week %s-53", "week 1-%s", "week 2,%s")
    each("012345679", "Mo[%s]", "Mo[-%s]", "Mo[%s-5]", "Mo[1-%s]", "Mo[2,%s]", "Jan Mo[%s]", "Jan Mo[-%s]", "Jan 5-Feb Mo[%s]")
    each(["00", "01", "58", "59", "60", "99"], "10:%s+", "10:00-12:%s", "(sunset+1:%s)+", "10:00-(dawn-1:%s)", "10:00-12:00/%s", "10:00-12:00/1:%s", "24:%s+", "10:00-48:%s", "10:00-24:%s")
    each(["0", "00", "9", "22", "23", "24", "25", "47", "48", "49", "99"], "%s:00+", "10:00-%s:00", "(sunset+%s:00)+", "(sunrise-%s:00)-12:00", "10:00-(dusk-%s:00)", "10:00-12:00/%s:00")
    return [line(s) for s in out]


def orders():
    """first against last, and the step against their difference"""
    out = [f"{2000 + a}-{2000 + b}" for a, b in [(0, 0), (0, 1), (1, 0), (5, 4)]]
    out += [f"2000-{2000 + d}/{n}" for d in (0, 1, 5) for n in sorted({0, 1, max(d - 1, 0), d, d + 1})]
    out += [f"week {a}-{b}" for a, b in [(7, 7), (7, 8), (8, 7), (53, 1)]]
    out += [f"week 10-{10 + d}/{n}" for d in (0, 1, 5) for n in sorted({0, 1, max(d - 1, 0), d, d + 1})]
    return [line(s) for s in out]


# ---- meaning
MONTHS = "Jan Feb Mar Apr May Jun Jul Aug Sep Oct Nov Dec".split()
DAYS = "Mo Tu We Th Fr Sa Su".split()


def bare_days():
    out = [f"{y}{m} 15-{d}" for y in ("", "2020 ", "9999 ") for m in MONTHS for d in (14, 15, 16)]
    out += [f"{y}{m} {d}-{e}" for y in ("", "2023 ") for m in MONTHS for d in (5, 31) for e in (29, 30, 31)]
    out += [f"{y} {m} {d}-{e}" for y in (1900, 2000, 2024) for m in ("Jan", "Feb") for d in (28, 29, 30, 31) for e in (28, 29, 30, 31)]
    out += [f"{y}{m} We[-2]-{d}" for y in ("", "9999 ") for m in ("Jan", "Dec") for d in (1, 31)]
    out += [s + o for s in ("2020 Dec 25-5", "Jan 31 -2 days-30", "Dec 31+Su-1") for o in ("", "+Mo", "-Su", " +3 days", "-Tu -4 days", " +3 day")]
    return [line(s) for s in out]


def marks():
    out = [f"{d}[{e}]" for d in ("Mo", "Su") for e in ("1-5", "2-4", "3-3", "4-2", "-1,-5", "1,-1", "5,4,3,2,1", "-3,2-4,1", "3-1,4-2", "3-1,-2", "1,1,1")]
    out += [f"{a}-{b}" for a in DAYS for b in ("Mo", "Th", "Su")]
    out += [f"Mar {d}[{n}]" for d in DAYS for n in (1, -5)]
    return [line(s) for s in out]


def names():
    """each name as it should be, all capitals, all small, and with another letter changed"""
    forms = {"%s": DAYS + ["PH", "SH"], "%s-%s": MONTHS, "%s+": ["dawn", "sunrise", "sunset", "dusk"], "Mo %s": ["open", "closed", "off", "unknown"], "%s off": ["easter"],
             "%s 3": ["week"], "PH +1 %s": ["day", "days"]}
    out = []
    for form, some in forms.items():
        for n in some:
            for spelt in dict.fromkeys([n, n.upper(), n.lower(), n.capitalize(), n[:-1].lower() + n[-1].upper(), n[0] + n[1:].upper()]):
                out.append(form.replace("%s", spelt))
    out += ["Sunset", "Su-Sunrise", "we", "WE", "week", "wee", "Weekday", "Ma", "Marc 5", "Mayo", "Octo", "offf", "opened", "Sund", "SUNSET-SUNRISE", "jan-DEC,mar 5-APR mo[1]", "mo;TU;wE", '"mo": mo "MO" ', 'OFF "OFF"']
    return [line(s) for s in out]


# ---- places and refusal numbers
BAD = {3: "x", 4: "1899", 5: "week 1-5/256", 6: "2021-2020", 7: "week 5-1", 8: "10:00", 9: "easter-05"}


def refusals():
    out = []
    for bad in BAD.values():
        for before, after in [("", ";Mo"), ("  ", ""), ("Mo;", ""), ("Mo; ", ";Tu"), ("Mo, ", ""), ("Mo ||  ", " "), ("Mo,Tu 10:00-12:00;  ", "  ; x"), ('"a;b", ', ";;")]:
            out.append(line(before + bad + after, "A"))
    for a in BAD.values():
        for b in BAD.values():
            out.append(line(a + ";" + b))
            out.append(line(a + "," + b))
    return out


# one rule of every thing that can be completed, and sheets of several rules
COMPLETED = ['2020-2021/2,2023+ 2024 Jan 5-Feb Mo[-1] +1 day,Mar-Apr week 3-5/1,7: Mo[1,2-3],PH -1 day 10:00-12:00/0:30,(sunset-1:00)+ off "c"', '"d": SH,Tu-Th sunrise-26:00 unknown', '24/7 closed "e"', 'easter-Mo: We']
JOINED = [' Mo ; "a";24/7', "Jan 1+  ,  off  ||  Tu", 'Mo, "b": Fr 10:00+ open "c" ||PH']


def slips():
    """a rule that ends, or goes on wrongly, at each of its places: its number, and its place"""
    out = [s[:i] + slip for s in COMPLETED for i in range(len(s)) for slip in ("", "x", '"')]
    out += [s[:i] + slip + s[i:] for s in JOINED for i in range(len(s) + 1) for slip in ("x", '"', '""', ";", ",", "1899 ")]
    out += [f"{a}{blank}{b}" for a in ("Mo", "Mo,Tu", "week", "week 1", "24/7", "Jan:", "off", '"c"', '"c":', "10:00-12:00", "Mo, ") for blank in ("", " ", "   ") for b in ("", ".", "x", '""', '"a', '"\\x01"', "Mo", ",Mo", "|", ":")]
    items = ["1899", "2020-1899", "1899 Jan", "Jan 32", "2020 Jan 5-32", "week 60", "week  1-5/256", "week 1,5-1", "2021-2020", "10:60+", "(sunset+25:00)+", "10:00", "(dawn-1:00)", "easter-05", "2020 easter-5", "Mo[6]", "PH +40000 days"]
    out += [before + item for item in items for before in ("", "  ", "Mo;  ", "off, ")]
    out += [a + b for a, b in [("2020,", "1899"), ("2020 2021 Jan,", "1899 Jan"), ("Jan,", "Jan 32"), ("week 1,2-3,", "54"), ("Mo,PH,", "SH +40000 days"), ("Mo-Tu,", "We[0]"), ("2020 Jan: ", "Mo[6]"), ('"c": ', "10:60+"), ("Mo 10:00-12:00,", "10:00"), ("Mo,", "10:00")]]
    return [line(s) for s in out]


def item_places():
    """items after blanks, in lists, with years and brackets, in every list of a rule, in later rules and parts"""
    out = ["  2020", " 2020 Jan", "2020  2021 Jan", "2020-2021,2023+,2025  Jan,2024 Feb 3-5,easter", "week  1,2-3,53", "2020 week   7 Mo", "  Mo,Tu-We[1],PH,SH +1 day", "PH,Mo  (sunset-1:00)-26:00,dawn+,10:00-12:00", "Jan 5+Mo -1 day-7,Feb:  Mo",
           '  "c":  Mo,PH 10:00+ off "d"', '  off', ' "e"', '  24/7  closed', 'Mo;Tu', ' Mo ;  Tu "a" ; 24/7', "Mo, Tu,We || Th  10:00+,11:00+,  off", ' 2020 Jan-Mar , week 1,3: Sa 10:00-12:00/30 "f" ;;x', "Mo ; x ;  2021-2020; 1999 Dec Mo[-1]"]
    return [line(s, "A") for s in out]


def tables():
    """tables of 0 words and more against sheets of 1 record and more"""
    sizes = [0, 1, 15, 16, 17, 31, 32, 33, 47, 48, 63, 64, 80, 512]
    texts = ["off", "Mo", "Mo,Tu", "Mo;Tu", " Mo; off", "Mo, Tu", "Mo;x", "", "10:00"]
    return [line(s, "A", w) for s in texts for w in sizes]


def blanks():
    out = ["", " ", "  ", "Mo", " Mo", "Mo ", "  Mo  ", "Mo  ;  Tu", "  Mo  ,  Tu  ", "  Mo  ||  Tu  ", "2020  Jan", "2020  Jan  5", "Jan  5-Feb  6", "Jan  Mo[1]", "week  3", "week3", "PH  +1  day", "PH  + 1 day", "Mo  10:00-12:00",
           "Mo  off", 'Mo  off  "c"', '"c":  Mo', "Jan:  Mo", "24/7  off", "24 /7", "Mo -Tu", "Mo- Tu", "Mo[ 1]", "Mo[1 ]", "Mo [1]", "10 :00+", "10: 00+", "10:00 +", "10:00- 12:00", "10:00-12:00 +", "10:00-12:00 /30", "10:00-12:00/ 30",
           "(sunset +1:00)+", "( sunset+1:00)+", "(sunset+1:00 )+", "2020 -2021", "2020- 2021", "2020-2021 /2", "2020 +", "Jan -Feb", "Jan- Feb", "Jan 5 -Feb 6", "Jan 5- Feb 6", "Jan 5 +", "Jan 5 +Mo", "Jan 5+ Mo", "easter +Mo", "easter  -1  days", "week 1 -2", "week 1- 2", '" "', '"c" ', ' "c"', '"c" :', '"c":', '"c": ']
    return [line(s, "A") for s in out]


# ---- bytes
def odd_bytes():
    out = [line(b"Mo" + bytes([b])) for b in range(256) if b != 10]
    out += [line(b'"' + bytes([b]) + b'"', "A") for b in list(range(10)) + list(range(11, 36)) + [126, 127, 128, 159, 160, 191, 192, 254, 255]]
    every = bytes(b for b in range(32, 256) if b != 34)
    out += [line(b'"' + every + b'"', "A"), line(b'Mo "' + every + b'"; Tu off "' + every + b'"', "A")]
    out += [line(bytes([b]) + b"Mo", "A") for b in (0, 9, 13, 31, 127, 128, 194, 239, 255)]
    return out


def letters():
    """comments of letters from every row of RFC 3629's table and from outside it, at its edges, cut short and beside others"""
    leads = [0x41, 0x7f, 0x80, 0xbf, 0xc0, 0xc1, 0xc2, 0xdf, 0xe0, 0xe1, 0xec, 0xed, 0xee, 0xef, 0xf0, 0xf1, 0xf3, 0xf4, 0xf5, 0xf7, 0xf8, 0xfe]
    some = [bytes([lead, second, *rest]) for lead in leads[6:] for second in (0x7f, 0x80, 0x8f, 0x90, 0x9f, 0xa0, 0xbf, 0xc0) for rest in [b"", b"\x80", b"\x80\xbf"][:1 + (lead >= 0xe0) + (lead >= 0xf0)]]
    some += [bytes([lead]) for lead in leads]
    good = ["\u00e9", "\u20ac", "\ufeff", "\uffff", "\U0001d11e", "\U0010ffff"]
    some += [c.encode() + end for c in good for end in (b"", b"a", b"\x80", b"\xbf\xbf")]
    some += [c.encode()[:n] + rest for c in good for n in range(1, len(c.encode())) for rest in (b"", b"a", b"\xe2\x82\xac")]
    some += [(a + b).encode() for a in good for b in good]
    some += [b"ab\xf0\x9d\x84\x9ec\xe2\x82\xacd\xc3\xa9" + end for end in (b"", b"\xff", b"\xc3", b"\xe2\x82", b"\xf0\x9d\x84")]
    out = [line(b'"' + x + b'"') for x in some]
    places = ['%s', ' %s ', '%sx', '%s: Mo', '%s:Mo', '%s: Mo "x"', '"x": Mo %s', '"x": %s', 'Mo %s', 'Mo%s', 'Mo off %s', 'off %s "', 'Mo %s ""', '%s""', '"x" %s', '10:00 %s', '%s; 10:00', 'Mo;%s;Tu', 'Mo, %s', 'Mo %s;Tu "\\xc3\\xa9"']
    return out + [line(p % c, "A") for p in places for c in ('"\\xff"', '"a;\\xc3"', '"\\xff', '"\\xff\\x01"')]


def quotes():
    out = ['"', '""', '"""', '""""', '"a', 'a"', '"a"b"', '"a""b"', '"a" "b"', 'Mo "a;b"; Tu "c;d"', 'Mo";Tu', 'Mo ";Tu";We', 'Mo "";Tu', ';"', '";', '";";', 'Mo;"a', 'Mo;"a;Tu', '"a;"', '"a;";', '"a":;Mo', '"a;b": Mo;Tu', 'Mo "a"; "b": Tu "c"; off "d"', ';', ';;', ';;;', ' ; ; ', 'Mo;', ';Mo', 'Mo "a\\x01;b"; Tu', 'Mo "a, b || c", Tu "d" || We "e"', '"a"||"b"', '"a", "b"', '"a","b"', 'Mo "a" ;Tu', 'Mo "a";Tu "b";We "c";Th "d"']
    return [line(s, "A") for s in out]


# ---- long sheets
def long_sheets():
    full = b'"' + b"c" * 4094 + b'"'
    return [
        line(full, "L"), line(full[:-1] + b'c"', "L"), line(b"Mo" + b" " * 4094, "L"), line(b"Mo" + b" " * 4095, "L"), line(b" " * 4096, "L"), line(b" " * 4097, "L"),
        line(b" " * 4094 + b"Mo", "L"), line(b" " * 4095 + b"x", "L"), line(b" " * 4092 + b";;Mo", "L"), line(b'Mo;"' + b"c;" * 2044 + b'";Tu', "L"), line(b'Mo;"' + b"c;" * 2044 + b'"; Tu', "L"),
        line(b"Mo," * 1365 + b"M", "S", 8192), line(b"Mo," * 1365 + b"Mo", "S", 8192), line(b"Mo;" * 1365 + b"x", "S", 8192), line(b"off;" * 511 + b"off", "S", 8192), line(b"off;" * 512 + b"off", "S", 8192), line(b"off;" * 1023 + b"off ", "S", 8192),
        line(b"2020," * 200 + b"2021 " + b"10:00-12:00," * 100 + b"10:00+", "S", 8192),
        line(b"x" * 4096, "L"), line(b"9" * 4096, "L"), line(b"Mo[" + b"1," * 2045 + b"2]", "L"), line(b"Mo[" + b"1," * 2045 + b"2", "L"), line(b'"' * 4096, "S"), line(b"24/7" + b"\xff" * 4092, "L"),
    ]


# ---- parts
def exchanges():
    """one part exchanged for bytes whose quotes pair and whose semicolons stand inside quotes"""
    base = ['Mo;Tu;We', 'Mo "a";x;Tu "b" ', ' mo 10:00-12:00;"a;b": TU; 1899 ;off "c"', 'Mo "";;"d"', 'Mo;2021-2020, Tu;We "e", Th || Fr "f"', '10:00+;"g\\x01;"; Tu "h;i"; ']
    new = ["", "x", "Th 10:00-12:00 off", '"n;o"', '"\\xff;"', '"";"', ' "p": Fr, Sa || Su ', "1899", '\\x00"\\x01"', "Mo,Tu,We,Th,Fr,Sa,Su"]
    cut = re.compile(r'(?:[^";]|"[^"]*")*')
    out = []
    for sheet in base:
        parts = [m.group() for m in cut.finditer(sheet) if m.start() == 0 or sheet[m.start() - 1] == ";"]
        assert ";".join(parts) == sheet, (sheet, parts)
        for k in range(len(parts)):
            for text in new:
                if text.count('"') % 2 == 0:
                    other = ";".join(parts[:k] + [text] + parts[k + 1:])
                    out.append(line(sheet + "\\x09" + other, "X", 80, str(k)))
                    if k == 1:
                        out.append(line(other, "P", 80))
        out.append(line(sheet, "A", 80))
    return out


def notes():
    return [line(s, "N", 0) for s in ("", '"', 'Mo', '"abc"', 'Mo "a"', '"\\xff\\x00;|b"', 'Mo "abcdefgh"')]


# ---- feeds
def feed(sheets, answers, words, end=""):
    """a case of a feed: byte 9 for byte 10"""
    return line("%04d" % answers + "\\x09".join(sheets) + end, "F", words)


def feeds():
    """lines of every kind, tables of 0 words and more for answers and for records, the known sheets all together"""
    some = [[], [""], ["Mo"], ["Mo", "Tu"], ["Mo", "", "24/7"], ["", "", ""], ["x", "Mo", "10:00", "off"], ['Mo "a', 'b"'], ["Mo\\x0d", "Tu"], [" Mo ;Tu", 'off "c"; "d": We', "Fr,Sa, Su"], ["mo", "1899", "Mo[6],Tu", "  OFF"], ['"\\xff"', '"\\xc3\\xa9"', "\\x00", "Mo;;"]]
    out = [feed(s, a, w, end) for s in some for a in (4 * len(s), 4 * len(s) + 3) for w in (0, 16, 31, 32, 63, 64, 512) for end in ("", "\\x09")]
    out += [feed(s, a, 512, end) for s in some for a in range(4 * len(s)) for end in ("", "\\x09")]
    out += [feed(["Mo,Tu,We", "off", "Mo,Tu", "10:00-12:00", "24/7", "Mo;Tu"], 24, w) for w in range(0, 256, 8)]
    out += [feed(["Mo", " " * 4097, "Tu"], 12, 512), feed([" " * 4096, "Tu"], 8, 64), feed(['"' + "c" * 4094 + '"', "Tu"], 8, 64)]
    for texts in (known(RULES), known(WIKI), sheets_of_readings()):
        texts = [x for x in texts if "\\x0a" not in x and "\\x09" not in x]
        out += [feed(texts[i:i + 60], 4 * 60, w) for i in range(0, len(texts), 60) for w in (800, 8192)]
    return out


# ---- edition 2
POINTS = ["10:00", "0:00", "24:00", "24:01", "10:60", "dawn", "Sunset", "(dusk+1:30)", "(sunrise-24:00)", "(sunrise-24:01)", "10:00,12:00", "10:00,sunset+,11:00-12:00,dusk", "10:00/30", "10:00+", "10:00-10:00", "10:00-", "10:00-x", "10:00 - 12:00", "10:00:00", "10:000",
          "Mo 10:00", "Jan: 10:00", "Jan 10:00", "2020 Jan 5 sunset", '"c": 10:00', "week 3 dawn off", '10:00 "c"', '10:00"c"', "10:00x", "10:00,", "10:00, 11:00", '10:00 "', "10:00;dusk||DAWN", "Jan 1:10:00-12:00", "Jan 1:0", "(dawn)", "(dawn+1:00", "easter-05 10:00"]
WEEKDAYS = ["Mo-Fr[1]", "Mo-Fr[1,3-5,-1]", "Mo-Fr[3-1]", "Mo-Fr[6]", "Mo-Fr[1", "Mo-Fr[1,x]", "Mo-Fr[-1-2]", "Mo[-1-2]", "Mo[1]-Fr", "Mo[1][2]", "Su-Mo[5]", "Mo +1 day", "Mo -32767 days", "Mo +32768 days", "Mo +0 days", "Mo +1 dayx", "Mo +1", "Mo  +1  day", "Mo+1 day", "Mo-Fr +1 day",
            "Mo-Fr -2 days", "Mo-Fr[2] +3 days", "Mo-Fr[2]+3 days", "Mo[1] +1 day", "Mo +1 day,Tu-We[-1],PH -1 day", "PH,Mo -1 day", "PH -1 day,Tu-We[2] +1 day,SH", "Mo +1 day 10:00-12:00", "Mo-Tu[1] -1 day 10:00", "Jan Mo +1 day", "Jan Mo[1] +1 day", "Jan Mo-Tu[1]", "Jan Mo[1]-Tu", "Jan Mo-Tu +1 day",
            "2020: mo-FR[1] off", '"c": Mo +1 day "d"', "Mo +1 day;Tu-We[1]", "Mo +1 day, Tu +1 day", "Mo +1 day +1 day", "Mo +1 day-Fr", "Mo +1 day[1]", "Mo-Su-Mo", "Su-Sunset", "Mo-week[1]"]


def new_in_2():
    return [line(s) for s in POINTS + WEEKDAYS]


def edition_2():
    """each known sheet, and those that the edition adds, in edition 2; editions that there are not; exchanged parts"""
    out = [line(s, "A", part="2") for s in POINTS + WEEKDAYS]
    out += [line(s, "A", part="1") for s in POINTS + WEEKDAYS]
    out += [line(s, "A", part="2") for s in sheets_of_readings()]
    out += [line(s, "S", part="2") for s in known(RULES) + known(WIKI)]
    more = ["10:00", "dusk", "Mo-Th[1,-1]", "Sa +1 day"]
    out += [line(a + j + b, "S", part="2") for j in [*JOINTS, "; "] for a in PIECES + more for b in PIECES + more if a in more or b in more]
    out += [line(s, "A", part=e) for e in "0123489" for s in ("", "Mo", "10:00", "Mo;x;Tu", '"\\xff"')]
    out += [line(b" " * 4097, "L", part=e) for e in "0123"] + [line(b'"' + b"c" * 4094 + b'"', "L", part="2")]
    out += [line(s, "A", w, "2") for s in ("10:00", "10:00;Mo +1 day", "10:00,11:00;x") for w in (0, 15, 16, 31, 32, 47, 48, 63, 64)]
    for one, parts in [("10:00;%s;Tu-We[1]", ("x", "10:00", '"\\xff;"', "Mo +1 day")), ('%s;Mo -1 day "a";x', ("dawn,dusk", "", '"b"'))]:
        out += [line(one % a + "\\x09" + one % b, "Y", 80, "0" if one.startswith("%") else "1") for a in parts for b in parts if a != b]
    return out


# ---- house sheets
SPANS = ["10:00-12:00", "12:00-14:00", "11:59-13:00", "9:00-10:00", "9:00-9:30", "0:00-24:00", "10:00-10:00", "10:00-9:59", "24:00-24:00", "23:59-24:00", "22:00-2:00", "22:00-24:01", "24:00-26:00", "10:00+", "10:00-12:00+", "10:00-12:00/00", "10:00-12:00/0:30", "dawn-12:00", "10:00-dusk", "(sunset-1:00)-24:00", "10:00-(dusk+0:01)"]


def house_sheets():
    """each known sheet, spans after spans, separators, a break of the profile beside another refusal, in the sheet and in its parts; exchanged parts"""
    out = [line(s, "A", part="h") for s in sheets_of_readings()]
    out += [line(s, "S", part="h") for s in known(RULES) + known(WIKI)]
    out += [line(a + "," + b, "S", part="h") for a in SPANS for b in SPANS] + [line(s, "A", part="h") for s in SPANS]
    out += [line(",".join(x), "S", part="h") for x in [("8:00-9:00", "10:00-11:00", "9:30-9:40"), ("8:00-9:00", "10:00-11:00", "8:30-12:00"), ("8:00-9:00", "9:00-10:00", "10:00-11:00"), ("8:00-20:00", "9:00-10:00", "21:00-22:00")]]
    rules = ["Mo 10:00-12:00", "x", "", "10:00", "1899", "off", "Mo 10:00+", "Tu 10:00-9:00", "We 9:00-10:00,9:30-11:00"]
    out += [line(a + j + b, "A", part="h") for a in rules for b in rules for j in (";", "; ", ", ", "||", " || ")]
    out += [line(s, "A", w, "h") for s in ("10:00+", "10:00-12:00", "Mo 10:00-12:00; Tu", "Mo, Tu") for w in (0, 15, 16, 31, 32, 48, 64, 80)]
    out += [line(b" " * 4097, "L", part="h"), line(b"10:00+;" * 585, "S", part="h"), line(b",".join(b"%d:%02d-%d:%02d" % (m // 60, m % 60, (m + 1) // 60, (m + 1) % 60) for m in range(0, 340)), "S", 8192, "h")]
    for one, parts in [("10:00-12:00;%s;Tu off", ("x", "10:00+", "Mo, Tu", "", "9:00-8:00")), ('%s;10:00+,dawn+;"a" ', ("Mo||Tu", "10:00-11:00"))]:
        out += [line(one % a + "\\x09" + one % b, "Z", 80, "0" if one.startswith("%") else "1") for a in parts for b in parts if a != b]
    return out


# ---- what stands before damage
def damaged():
    """sheets damaged after a `;` by broken quotes, control bytes, bytes above 127: the parts before it, in each manner, compared with those of the sheet and by themselves"""
    base = ['Mo;Tu;We', ' mo 10:00-12:00;"a;b": TU; 1899 ;off "c"', 'Mo "";;"d"; 24/7 ', "10:00+;10:00-9:00;Mo, Tu; x;off", "10:00;Mo-Fr[1];Mo +1 day;Su-Mo", 'Mo "\\xc3\\xa9;b";"\\xff";2020 Dec 25-05 off;"p": Fr, Sa || Su "q";']
    damage = ["", '"', '"a', '""', '"";"', 'Mo "', '"a;b', "\\x00", "\\x01;\\x1f", '"\\x01"', "\\xff", '"\\xff', '"\\xff";', "\\x80\\xfe;x", ";", ";;", 'Th;"";Fr', ' "c" "']
    cut = re.compile(r'(?:[^";]|"[^"]*")*')
    out = []
    for sheet in base:
        parts = [m.group() for m in cut.finditer(sheet) if m.start() == 0 or sheet[m.start() - 1] == ";"]
        assert ";".join(parts) == sheet, (sheet, parts)
        for k in range(len(parts) - 1):
            for text in damage:
                other = ";".join(parts[:k + 1] + [text])
                out += [line(sheet + "\\x09" + other, mode, 80, str(k)) for mode in "UVW"]
                out += [line(other, "P", 80, part) for part in " 2h"]
    return out


# ---- the Rust's own answers
def sample():
    """the sheets of the sample; its first line says how it was made"""
    return [line(s, "S", 8192) for s in open(os.path.join(TOOLS, "oracle", "sample.txt"), "rb").read().split(b"\n")[1:-1]]


ORIGINS = {
    "the rules": lambda: sheets_of(RULES), "readings": readings, "the wiki": lambda: sheets_of(WIKI),
    "transitions": transitions, "joints": joints, "order of pieces": triples, "ranges": ranges, "orders": orders, "bare days": bare_days, "marks": marks, "names": names, "refusals": refusals, "slips": slips, "items' places": item_places,
    "tables": tables, "blanks": blanks, "odd bytes": odd_bytes, "letters": letters, "quotes": quotes, "long sheets": long_sheets, "exchanges": exchanges, "notes": notes,
    "edition 2's shapes": new_in_2, "the Rust's answers": sample,
}
OF_OTHER_CALLS = {"feeds": feeds, "editions": edition_2, "house": house_sheets, "damage": damaged}


def main():
    seen = set()
    for name, make in [(name, OF_OTHER_CALLS[name]) for name in sys.argv[1:] if name in OF_OTHER_CALLS] or ORIGINS.items():
        lines = [x for x in make() if not (x in seen or seen.add(x))]
        assert not any(b"\n" in x for x in lines)
        if sys.argv[1:] == ["count"]:
            print(len(lines), name)
        else:
            sys.stdout.buffer.write(b"".join(x + b"\n" for x in lines))
    if sys.argv[1:] == ["count"]:
        print(len(seen), "cases")


if __name__ == "__main__":
    main()
