"""Random sheets of every shape, damaged copies, and the edges of every range. No sheet holds a newline."""
import random

WD = "Mo Tu We Th Fr Sa Su".split()
MON = "Jan Feb Mar Apr May Jun Jul Aug Sep Oct Nov Dec".split()
EVENT = "dawn sunrise sunset dusk".split()
STATE = "open closed off unknown".split()
NOTES = ["x", " ", "by appointment", "a;b", "a, b || c", "caf\u00e9", "\u65e5\u672c", "\U0001f3ca", "\u017fa", "24/7", "\x7f", "Mo off", "()[]\\"]
LETTERS = b'0123456789 ::;,|+-/[]()"MoTuWeJanPHSHdays\t\x00\x1f\x7f\\'
# edges of the ranges, with what lies just outside
YEAR = "1900 1901 1999 2000 2020 2021 9998 9999".split()
N = "0 1 2 3 7 52 254 255 256 32766 32767 00001".split()
DAY = "1 2 9 10 28 29 30 31 01 05".split()
WEEK = "1 2 9 10 52 53 01 05".split()
BAD = {"year": "0000 0999 1000 1899".split(), "n": "32768 65535 65536 99999 032767".split(), "day": "0 00 32 39 40 99".split(),
       "week": "0 00 54 59 60 99".split(), "nth": "0 6 7 9".split(),
       "clock": "24:01 24:59 25:00 29:59 30:00 47:59 48:00 99:00 10:60 9:99 00:60".split(),
       "end": "48:01 48:59 49:00 99:59 47:60 24:60".split(), "minute": "60 99".split(), "repeat": "24:00 24:01 25:00 30:00 99:00 1:60".split()}


class Sheets:
    def __init__(self, seed):
        self.r = random.Random(seed)
        self.bad = 0.0  # how often a number is out of range
        self.odd = 0.0  # how often a name is in another case

    def maybe(self, p, make):
        return make() if self.r.random() < p else ""

    def blank(self):
        return " " if self.r.random() < 0.93 else " " * self.r.randint(2, 4)

    def name(self, names):
        s = self.r.choice(names)
        return self.r.choice([s.lower, s.upper, s.swapcase, s.capitalize])() if self.r.random() < self.odd else s

    def number(self, kind, good):
        return self.r.choice(BAD[kind]) if self.r.random() < self.bad else good()

    def year(self):
        return self.number("year", lambda: self.r.choice(YEAR) if self.r.random() < 0.4 else str(self.r.randint(2015, 2030)))

    def n(self):
        return self.number("n", lambda: self.r.choice(N) if self.r.random() < 0.6 else str(self.r.randint(0, 40)))

    def day(self):
        return self.number("day", lambda: self.r.choice(DAY) if self.r.random() < 0.5 else str(self.r.randint(1, 31)))

    def week_number(self):
        return self.number("week", lambda: self.r.choice(WEEK) if self.r.random() < 0.4 else str(self.r.randint(1, 53)))

    def nth(self):
        return self.number("nth", lambda: str(self.r.randint(1, 5)))

    def clock(self):
        def good():
            if self.r.random() < 0.05:
                return "24:00"
            return self.r.choice(["%d:%02d", "%02d:%02d"]) % (self.r.randint(0, 23), self.r.choice([0, 30, 59, self.r.randint(0, 59)]))
        return self.number("clock", good)

    def end_clock(self):
        def good():
            if self.r.random() < 0.05:
                return "48:00"
            return "%d:%02d" % (self.r.randint(0, 47), self.r.choice([0, 30, self.r.randint(0, 59)]))
        return self.number("end", good)

    def ordered(self, one, p):
        """two numbers, mostly the smaller first"""
        a, b = one(), one()
        return (b, a) if int(a) > int(b) and self.r.random() < p else (a, b)

    def list_of(self, one, more=0.3):
        out = [one()]
        while self.r.random() < more:
            out.append(one())
        return ",".join(out)

    def year_item(self):
        a, b = self.ordered(self.year, 0.9)
        return self.r.choice([a, a + "+", a + "-" + b, a + "-" + b + "/" + self.n()])

    def week_item(self):
        a, b = self.ordered(self.week_number, 0.9)
        return self.r.choice([a, a + "-" + b, a + "-" + b + "/" + self.n()])

    def day_offset(self):
        return self.blank() + self.r.choice("+-") + self.n() + self.blank() + self.r.choice(["day", "days"])

    def offset(self):
        return self.maybe(0.5, lambda: self.r.choice("+-") + self.name(WD)) + self.maybe(0.5, self.day_offset)

    def date(self):
        form = self.r.randint(0, 4)
        year = self.maybe(0.4, lambda: self.year() + self.blank())
        if form == 0:
            return year + self.name(["easter"])
        if form == 1:
            return year + self.name(MON) + self.blank() + self.name(WD) + "[" + self.r.choice(["", "-"]) + self.nth() + "]"
        return year + self.name(MON) + self.blank() + self.day()

    def monthday_item(self):
        if self.r.random() < 0.3:
            return self.maybe(0.4, lambda: self.year() + self.blank()) + self.name(MON) + self.maybe(0.5, lambda: "-" + self.name(MON))
        start = self.date() + self.maybe(0.3, self.offset)
        offset = lambda: self.maybe(0.3, self.offset)
        end = self.r.choice([lambda: "", lambda: "+", lambda: "-" + self.date() + offset(), lambda: "-" + self.day() + offset()])
        return start + end()

    def entry(self):
        return self.r.choice([lambda: self.nth(), lambda: self.nth() + "-" + self.nth(), lambda: "-" + self.nth()])()

    def weekday_item(self):
        form = self.r.randint(0, 3)
        if form == 0:
            return self.name(WD)
        if form == 1:
            return self.name(WD) + "-" + self.name(WD)
        return self.name(WD) + "[" + self.list_of(self.entry, 0.5) + "]" + self.maybe(0.3, self.day_offset)

    def holiday_item(self):
        return self.r.choice(["PH", "SH"]) + self.maybe(0.3, self.day_offset)

    def weekdays(self):
        both = [lambda: self.list_of(self.weekday_item), lambda: self.list_of(self.holiday_item)]
        self.r.shuffle(both)
        return both[0]() + self.maybe(0.3, lambda: "," + both[1]()) + self.maybe(self.bad, lambda: "," + both[0]())

    def event_time(self):
        e = self.name(EVENT)
        return e if self.r.random() < 0.5 else "(" + e + self.r.choice("+-") + self.clock() + ")"

    def span_item(self):
        start = self.event_time() if self.r.random() < 0.2 else self.clock()
        if self.r.random() < 0.12:
            return start + "+"
        if self.r.random() < self.bad:
            return start  # a point in time
        end = self.event_time() if self.r.random() < 0.2 else self.end_clock()
        minute = lambda: "/" + self.number("minute", lambda: self.r.choice(["00", "15", "30", "59"]))
        repeat = lambda: "/" + self.number("repeat", lambda: self.r.choice(["0:00", "1:30", "01:30", "23:59"]))
        return start + "-" + end + self.r.choice([lambda: "", lambda: "", lambda: "+", minute, repeat])()

    def small(self):
        times = lambda: self.list_of(self.span_item)
        return self.r.choice([self.weekdays, times, lambda: self.weekdays() + self.blank() + times()])()

    def comment(self):
        return '"' + self.r.choice(NOTES) + '"'

    def modifier(self):
        return self.comment() if self.r.random() < 0.2 else self.name(STATE) + self.maybe(0.3, lambda: self.blank() + self.comment())

    def wide(self):
        if self.r.random() < 0.08:
            return self.comment() + ":"
        makers = [lambda: self.list_of(self.year_item), lambda: self.list_of(self.monthday_item),
                  lambda: "week" + self.blank() + self.list_of(self.week_item)]
        some = [m for m in makers if self.r.random() < 0.4] or [self.r.choice(makers)]
        return self.blank().join(m() for m in some) + self.maybe(0.15, lambda: ":")

    def selectors(self):
        k = self.r.random()
        if k < 0.05:
            return "24/7"
        wide = self.wide() if k < 0.6 else ""
        if wide.endswith(":") and self.r.random() < 0.95:
            return wide + self.blank() + self.small()
        if wide:
            return wide + self.maybe(0.4, lambda: self.blank() + self.small())
        return self.small()

    def rule(self):
        k = self.r.random()
        if k < 0.05:
            return self.modifier()
        return self.selectors() + self.maybe(0.35, lambda: self.blank() + self.modifier())

    def good(self):
        """a sheet made of the shapes"""
        s = self.maybe(0.05, self.blank) + self.rule()
        while self.r.random() < 0.25:
            s += self.maybe(0.1, self.blank) + self.r.choice([";", "; ", ", ", "||", " || ", ";", " , "]) + self.rule()
        return (s + self.maybe(0.05, self.blank)).encode()

    def byte(self):
        if self.r.random() < 0.95:
            return bytes([self.r.choice(LETTERS)])
        if self.r.random() < 0.9:
            return self.r.choice(["\u00e9", "\u017f", "\u00a0", "\u0130", "\u212a"]).encode()
        return bytes([self.r.randint(128, 255)])

    def damaged(self, s):
        i = self.r.randrange(len(s) + 1)
        how = self.r.randint(0, 5)
        if how == 0:
            return s[:i] + s[i + 1:]
        if how == 1:
            return s[:i] + self.byte() + s[i + 1:]
        if how == 2:
            return s[:i] + self.byte() + s[i:]
        if how == 3:  # a piece twice, or elsewhere
            j = min(len(s), i + self.r.randint(1, 6))
            k = self.r.randrange(len(s) + 1)
            return s[:k] + s[i:j] + s[k:]
        if how == 4:
            return s[:i]
        t = self.good()
        return s[:i] + t[self.r.randrange(len(t) + 1):]

    def soup(self):
        """pieces of shapes in any order"""
        fixed = ["PH", "SH", "week", "week ", "day", "days", "24/7", "2020", "2021", "5", "05", "31", "1", "10:00", "12:00", "24:00"]
        pieces = [lambda: self.name(WD), lambda: self.name(MON), lambda: self.name(EVENT), lambda: self.name(STATE), lambda: self.name(["easter"]),
                  self.comment, lambda: self.r.choice(fixed),
                  lambda: self.r.choice(list("+-/:,;[]()") + [" ", " ", " ", " ", "-", "-", ",", ", ", "||", " +1 day", "[1]", "[-2]", ": "])]
        return "".join(self.r.choice(pieces[:-1])() + self.maybe(0.8, pieces[-1]) for _ in range(self.r.randint(1, 5))).encode()

    def sheet(self):
        self.bad = self.r.choice([0, 0, 0, 0, 0.04, 0.3])
        self.odd = self.r.choice([0, 0, 0.1, 0.6])
        s = self.good() if self.r.random() < 0.8 else self.soup()
        for _ in range(self.r.choice([0, 0, 0, 0, 1, 1, 2])):
            s = self.damaged(s)
        return s.replace(b"\n", b"?")[:4096]


def edges():
    """the edges of every range and every bare end day"""
    years, ns, days, weeks = YEAR + BAD["year"], N + BAD["n"], DAY + BAD["day"], WEEK + BAD["week"]
    nth = [str(i) for i in range(10)]
    hours, minutes = (0, 9, 10, 23, 24, 25, 47, 48, 49, 99), ("00", "01", "59", "60", "99")
    clocks = ["%d:%s" % (h, m) for h in hours for m in minutes] + ["00:00", "010:00", "1:0", "1:000"]
    for y in years + ["20200", "202"]:
        yield from (y, y + "+", y + " Jan", y + " easter", y + " Jan 1-5", y + " Jan Mo[1]", "Jan 1-" + y + " Jan 2", y + " Dec 31-1")
        for z in years:
            yield from (y + "-" + z, *(y + "-" + z + "/" + n for n in ns))
    for n in ns + ["000000", "100000"]:
        yield from ("PH +%s day" % n, "SH -%s days" % n, "Mo[1] -%s days" % n, "Jan 1 +%s days" % n)
        yield from ("Jan 1-Mo -%s day" % n, "easter-05 +%s days" % n, "Jan 1-05 -%s days" % n)
        yield from ("Jan Mo[1]-Feb 3 +%s days" % n, "easter +%s days-05" % n, "easter +%s days+" % n)
    for a in weeks + ["100"]:
        for b in weeks:
            yield from ("week " + a, "week " + a + "-" + b, *("week " + a + "-" + b + "/" + n for n in ns))
    for d in range(33):
        for e in range(33):
            for m in ("Jan", "Nov", "Dec"):
                yield from ("%s %d-%d" % (m, d, e), "2020 %s %02d-%02d" % (m, d, e))
        yield from ("9999 Dec 31-%d" % d, "2020 Dec Mo[-1]-%d" % d, "easter-%d" % d, "2020 easter-%d" % d, "Jan 5 -3 days-%d" % d)
    for d in days:
        yield from ("Jan " + d, "Jan 1-" + d, "Jan %s+" % d, "Jan %s+Mo" % d, "Jan %s-Feb %s" % (d, d))
    for a in nth:
        yield from ("Mo[%s]" % a, "Mo[-%s]" % a, "Jan Mo[%s]" % a, "Jan Mo[-%s]" % a, "Mo[1%s]" % a)
        yield from ("Mo[%s-%s]" % (a, b) for b in nth)
        yield from ("Mo[%s,-%s]" % (a, b) for b in nth)
    for c in clocks:
        yield from (c, c + "+", c + "-12:00", "10:00-" + c, "(sunset+%s)-26:00" % c)
        yield from ("10:00-(dawn-%s)" % c, "10:00-12:00/" + c, "10:00-12:00+/" + c, "Jan " + c + "-12:00")
    yield from ("10:00-12:00/%02d" % m for m in range(100))
    for a in WD + EVENT + STATE + MON + ["PH", "SH", "week", "day", "days", "easter"]:
        for b in sorted({a, a.lower(), a.upper(), a.capitalize(), a.swapcase()}):
            yield from (b, b + " 1", b + "-" + b, b + "-10:00", b + "+", "Mo " + b, "Jan 1-" + b)
            yield from (b + "x", "%s 5-%s 6" % (b, b), "(%s+1:00)+" % b, "week " + b)
    yield from ("", " ", "   ", ";", "Mo;", "Mo; ", "Mo,", "Mo, ", "Mo ,Tu", "Mo , Tu", "Mo||Tu", "Mo|||Tu", "Mo|Tu")
    yield from ('""', '" "', '"a', "24/7", "24/7 Mo", "Mo;; Tu", '"x": Mo off "y"')
    # length: 4,096 bytes are read; table: 512 records are held
    yield from ("Mo " + '"' + "a" * k + '"' for k in (4090, 4091, 4092, 4093))
    yield from (";".join(["Mo"] * k) for k in (255, 256, 257, 300))
    yield from (",".join(["Mo"] * k) for k in (510, 511, 512, 513, 1000))
    yield from ("Mo" + " " * k for k in (4093, 4094, 4095))
    yield from ("x" * 4096, "x" * 4097, "10:00" + " " * 4092, "10:00;" + ";".join(["Mo"] * 400), ";".join(["Mo"] * 400) + ";10:00")
