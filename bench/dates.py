#!/usr/bin/env python3
"""Compares the parts of every day of the years 1 to 9999 with Python's calendar.

Build the program first: `rt run` in crates/engine_bench leaves out/engine_bench."""
import datetime
import os
import subprocess
import sys

PROGRAM = os.path.join(os.path.dirname(__file__), "..", "crates", "engine_bench", "out", "engine_bench")


def expected(day):
    """The line of a day: its place in month, year and week, and its ISO week."""
    iso_year, iso_week, iso_day = day.isocalendar()
    return (f"{day.year} {day.month} {day.day} {day.timetuple().tm_yday} "
            f"{iso_day % 7 + 1} {iso_day} {iso_week} {iso_year}\n").encode()


def main():
    if not os.path.exists(PROGRAM):
        print(f"skipped: {PROGRAM} is not built")
        return
    child = subprocess.Popen([PROGRAM, "dates"], stdout=subprocess.PIPE)
    count = 0
    for ordinal in range(1, datetime.date.max.toordinal() + 1):
        want = expected(datetime.date.fromordinal(ordinal))
        line = child.stdout.readline()
        if line != want:
            sys.exit(f"day {ordinal}: wrote {line!r}, and the calendar says {want!r}")
        count += 1
    rest = child.stdout.read()
    if rest or child.wait() != 0:
        sys.exit(f"ended with {child.returncode}, and {len(rest)} bytes too many")
    print(f"{count} days agree")


main()
