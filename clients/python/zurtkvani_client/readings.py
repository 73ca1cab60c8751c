"""Turns a CSV of readings, with dates and decimals, into the lines that the chart program's `load` takes.

A row's time is a date in ISO 8601, as 2026-11-27T08:30:00Z or 2026-11-27 08:30 or 2026-11-27, or a number of seconds or
milliseconds since 1970. A date without an offset is in UTC. Its value is a decimal; an empty one, `-`, NaN, NA, null and None
are a time without a reading. A first row is a header where neither of its fields is one or begins with a digit, a sign or a
point; it is told.

Sent is `time,value` for each reading that stands on a slot of the series: a whole number of steps behind its start. What
doesn't fit is listed on standard error by the number of its line, and at the end how many rows there were of each kind. The
exit status is 1 where something didn't fit.
"""
import argparse
import csv
import os
import sys
import zlib

from .decimals import MISSING, MOST, decimal_text, whole_number
from .progress import Progress
from .sources import Source, Unreadable
from .timestamps import UNITS, TimeReader
from .unfit import Unfit
from .words import fault

PARTS = ("seconds", "milliseconds")
LAST_SLOT = 2**35 - 1


class Grid:
    """The slots of a series. Where no start is named it is the time of the first reading."""

    def __init__(self, words):
        self.step, self.scale, self.decimal_comma = words.step, words.scale, words.decimal_comma
        self.read, self.size = TimeReader(words.read), UNITS[words.write]
        self.start = None
        if words.start is not None:
            self.start = self.time_of(words.start)

    def time_of(self, text):
        """The time of a field, in the unit of the series."""
        time, rest = divmod(self.read(text), self.size)
        if rest or not -MOST <= time <= MOST:
            raise Unfit(f"{text!r} is no whole time of the series")
        return time

    def value_of(self, text):
        """The value of a field as a whole number of the series, None where there is no reading."""
        if text.lower() in MISSING:
            return None
        number, is_rounded = whole_number(text.replace(",", ".") if self.decimal_comma else text, self.scale)
        if is_rounded:
            raise Unfit(f"{text!r} has more than {self.scale} decimals")
        return number

    def row(self, fields):
        """The time of a row's two fields, and their whole number, or None where there is no reading."""
        time, number = self.time_of(fields[0].strip()), self.value_of(fields[1].strip())
        if number is None:
            return time, None
        if self.start is None:
            self.start = time
        slot, rest = divmod(time - self.start, self.step)
        if rest:
            raise Unfit(f"{fields[0]!r} lies between two slots")
        if not 0 <= slot <= LAST_SLOT:
            raise Unfit(f"{fields[0]!r} lies " + ("before the start" if slot < 0 else "too far behind the start"))
        return time, number


def convert(source, columns, grid, out, progress):
    """Sends what fits, and tells of the rest; gives how many rows fit, have no reading, and don't fit."""
    counts = {"fit": 0, "missing": 0, "unfit": 0}

    def tell(line, what):
        progress.end()
        print(f"line {line}: {what}", file=sys.stderr)

    for count, (fields, line) in enumerate(row for row in source.rows if any(map(str.strip, row[0]))):
        if not count & 1023:
            progress.show(count, source.done())
        if not count and is_header(fields, columns, grid):
            tell(line, "taken as the names of the columns")
            continue
        try:
            if len(fields) < max(columns):
                raise Unfit(f"there is no column {max(columns)}")
            time, number = grid.row([fields[column - 1] for column in columns])
        except Unfit as why:
            counts["unfit"] += 1
            tell(line, why)
            continue
        counts["missing" if number is None else "fit"] += 1
        if number is not None and out:
            out.write(f"{time},{decimal_text(number, grid.scale)}\n")
    return counts


def is_header(fields, columns, grid):
    """Whether a first row names the columns: neither of its fields is what a reading has, or looks like a number."""
    for column, read in zip(columns, (grid.time_of, grid.value_of)):
        if column > len(fields):
            continue
        field = fields[column - 1].strip()
        try:
            read(field)
            return False
        except Unfit:
            if field[0] in "0123456789+-.,":
                return False
    return True


def words_of(arguments):
    words = argparse.ArgumentParser(
        prog="python3 -m zurtkvani_client.readings", description=__doc__, formatter_class=argparse.RawDescriptionHelpFormatter
    )
    words.add_argument("file", nargs="?", default="-", help="the CSV; standard input where none is named")
    words.add_argument("--step", type=int, required=True, help="the series' step, in the unit of --write")
    words.add_argument("--start", help="the series' start, a time as in the CSV; else that of the first reading")
    words.add_argument("--scale", type=int, default=0, choices=range(10), help="the series' number of decimals; 0 where none is named")
    words.add_argument("--read", choices=PARTS, default="seconds", help="the unit of the CSV's numbers of time")
    words.add_argument("--write", choices=PARTS, default="seconds", help="the unit of the series' times")
    words.add_argument("--columns", type=int, nargs=2, default=(1, 2), metavar=("TIME", "VALUE"), help="their columns, counted from 1")
    words.add_argument("--delimiter", default=",", help="what stands between two fields")
    words.add_argument("--decimal-comma", action="store_true", help="values have a comma for the point")
    words.add_argument("--dry-run", action="store_true", help="send nothing, and list and count all the same")
    given = words.parse_args(arguments)
    if not 1 <= given.step <= 2**31:
        words.error("a step is 1 to 2147483648")
    if len(given.delimiter) != 1 or min(given.columns) < 1:
        words.error("a delimiter is one character, and columns count from 1")
    return words, given


def main(arguments=None):
    words, given = words_of(arguments)
    if sys.stdout is None or sys.stderr is None:
        words.error("standard output or standard error is closed")
    progress = Progress(given.dry_run or not sys.stdout.isatty())
    try:
        grid = Grid(given)
        # A byte order mark is dropped.
        source = Source(given.file, given.delimiter, "utf-8-sig")
    except (Unfit, OSError) as why:
        words.error(fault(why))
    try:
        counts = convert(source, given.columns, grid, None if given.dry_run else sys.stdout, progress)
        sys.stdout.flush()
    except BrokenPipeError:
        # Whoever took the lines has gone. Python would write what is left when it ends, and fail once more.
        os.dup2(os.open(os.devnull, os.O_WRONLY), sys.stdout.fileno())
        return 1
    except (OSError, EOFError, Unreadable, csv.Error, zlib.error) as why:
        words.error(fault(why))
    finally:
        progress.end()
        source.close()
    series = "" if grid.start is None else f"; the series: create NAME {grid.start} {grid.step} {grid.scale}"
    told = f"{counts['fit']} readings, {counts['missing']} times without one, {counts['unfit']} lines that don't fit"
    print(f"readings: {told}{series}", file=sys.stderr)
    return 1 if counts["unfit"] else 0


if __name__ == "__main__":
    sys.exit(main())
