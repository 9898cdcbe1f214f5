"""python.py [SHEETS]: sheets a second by the feed's call, and rule-days a second as an array and as a table, beside the calls for C alone and a loop in plain Python with
datetime. The sheets are those of tools/oracle/common.txt over and over; the least processor time of three runs counts."""
import datetime
import sys
import time
from pathlib import Path

import lorukinde
from lorukinde import Weekdays, _library
from lorukinde._library import Room, lent

START, END = datetime.date(2021, 1, 1), datetime.date(2021, 1, 31)
RUNS = 3


def seconds(work):
    least = float("inf")
    for _ in range(RUNS):
        begin = time.process_time()
        work()
        least = min(least, time.process_time() - begin)
    return least


def plain_loop(rules, every):
    """What is to be beaten: rules of weekdays alone, by a loop over days."""
    return [[all(w.first <= date.isoweekday() <= w.last for w in rule) for date in every] for rule in rules]


def main():
    count = int(sys.argv[1]) if len(sys.argv) > 1 else 32_000
    common = [line for line in (Path(__file__).parents[1] / "oracle" / "common.txt").read_bytes().split(b"\n") if line and not line.startswith(b"#")]
    sheets = (common * (count // len(common) + 1))[:count]
    feed = b"\n".join(sheets)
    print(f"{count} sheets, {len(feed)} bytes")
    print(f"read_feed: {count / seconds(lambda: lorukinde.read_feed(feed)):,.0f} sheets a second")

    days = lorukinde.days(sheets, START, END)
    many, total = days.many, days.many.rule_count * days.day_count
    room = Room(days.answers.length)
    calls = seconds(lambda: _library.parts_days(*lent(many.parts), *lent(many.records), *lent(days.words), *room.lent()))
    array = seconds(lambda: lorukinde.days(sheets, START, END).numpy())
    table = seconds(lambda: lorukinde.days(sheets, START, END).pandas())
    rules = [[item.meaning for item in rule.items if isinstance(item.meaning, Weekdays)] for sheet in common for rule in lorukinde.read(sheet).rules]
    every = [START + datetime.timedelta(i) for i in range(days.day_count)]
    loop = seconds(lambda: plain_loop(rules, every)) * total / (len(rules) * len(every))
    print(f"{total} rule-days, with the sheets read again:")
    for name, took in (("the calls alone, sheets read before", calls), ("days().numpy()", array), ("days().pandas()", table), ("a loop in plain Python, weekdays alone, sheets read before", loop)):
        print(f"{name}: {total / took:,.0f} a second, {took / calls:.1f} times the calls")


main()
