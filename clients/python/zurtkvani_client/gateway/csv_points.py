"""CSV, as points of one series: `time,value`, a time as a date or as a number since 1970, a value as a decimal."""
import csv
import io
import re

from ..decimals import MISSING, decimal_of
from ..timestamps import NUMBER, UNITS, TimeReader, unit_of
from ..unfit import Unfit
from .intake import Point
from .line_protocol import PRECISIONS


def points(text, key, precision, outcome):
    """The points of a text, and None for lines that are none; these are told by the outcome. A first line that begins with no digit is a
    header."""
    read_date = TimeReader()
    for row, line in enumerate(io.StringIO(text), 1):
        yield point_of(line, row, key, precision, read_date, outcome)


def point_of(line, row, key, precision, read_date, outcome):
    try:
        fields = [field.strip() for field in next(csv.reader([line]), [])]
        if not any(fields) or row == 1 and not re.match(r"[0-9+-]", fields[0]):
            return None
        if len(fields) != 2:
            raise Unfit(f"{len(fields)} fields, not a time and a value")
        time = time_of(fields[0], precision, read_date)
        if fields[1].lower() in MISSING:
            outcome.left_out += 1
            return None
        decimal_of(fields[1])
        return Point(key, None, time, fields[1])
    except (Unfit, csv.Error) as why:
        outcome.fail(f"line {row}: {why}")
        return None


def time_of(text, precision, read_date):
    """A time in nanoseconds: a number counts what the precision says, and without one is told by its size."""
    if not NUMBER.fullmatch(text) or text[4:5] == "-":
        return read_date(text)
    size = PRECISIONS[precision] if precision else UNITS[unit_of(float(text))]
    whole, _, rest = text.partition(".")
    places = len(rest)
    number = int(whole + rest) * size
    if number % 10**places:
        raise Unfit(f"{text!r} is finer than a nanosecond")
    return number // 10**places
