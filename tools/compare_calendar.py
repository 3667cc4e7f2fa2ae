#!/usr/bin/env python3
"""Compares the program's reading of instants with Python's datetime.

  compare_calendar.py PROGRAM             every day of 2000 to 2099, at its first and last second and at one between
  compare_calendar.py --journal           writes a journal: the first and the last second of every month
"""
import subprocess
import sys
from datetime import datetime, timedelta

START = datetime(2000, 1, 1)
END = datetime(2100, 1, 1)
DAY = 86_400


def reading(instant):
    time = START + timedelta(seconds=instant)
    return f"{time:%Y-%m-%d %H:%M:%S} weekday {time.isoweekday() % 7}"


def month_bounds():
    """The first and the last second of each month."""
    for year in range(2000, 2100):
        for month in range(1, 13):
            first = datetime(year, month, 1)
            following = datetime(year + month // 12, month % 12 + 1, 1)
            yield int((first - START).total_seconds())
            yield int((following - START).total_seconds()) - 1


def day_instants():
    """Three instants of each day; the one between moves through all seconds of a day."""
    for day in range((END - START).days):
        yield day, (day * DAY, day * DAY + day * 7919 % DAY, day * DAY + DAY - 1)


def compare(program):
    days = list(day_instants())
    calls = [f"when {instant}" for _, instants in days for instant in instants]
    run = subprocess.run([program], input="\n".join(calls) + "\n", capture_output=True, text=True, check=True)
    answers = iter(run.stdout.splitlines())
    agreeing = 0
    for day, instants in days:
        agrees = True
        for instant in instants:
            expected = f"when {instant} -> {reading(instant)}"
            answer = next(answers)
            if answer != expected:
                agrees = False
                print(f"day {day}: expected '{expected}', the program has '{answer}'")
        agreeing += agrees
    print(f"{agreeing} of {len(days)} days agree")
    return 0 if agreeing == len(days) else 1


def main(words):
    if words == ["--journal"]:
        print("# The first and the last second of every month.")
        for instant in month_bounds():
            print(f"when {instant}")
        return 0
    if len(words) == 1 and not words[0].startswith("-"):
        return compare(words[0])
    print(__doc__, file=sys.stderr)
    return 2


if __name__ == "__main__":
    sys.exit(main(sys.argv[1:]))
