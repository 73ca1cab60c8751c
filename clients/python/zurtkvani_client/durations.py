"""Lengths of time as texts, such as 60s, 250ms or 5min, to whole nanoseconds."""
import re
from decimal import Decimal

from .unfit import Unfit

SIZES = {"us": 10**3, "ms": 10**6, "s": 10**9, "": 10**9, "min": 60 * 10**9, "h": 3600 * 10**9, "d": 86_400 * 10**9}
DURATION = re.compile(r"(\d{1,15}(?:\.\d{1,9})?)\s*(us|ms|s|min|h|d|)", re.ASCII)


def nanoseconds_in(text):
    """The nanoseconds of a length of time; a bare number counts seconds. Raises Unfit where it is none, or finer than a nanosecond."""
    match = DURATION.fullmatch(text.strip())
    length = Decimal(match[1]) * SIZES[match[2]] if match else None
    if length is None or length != int(length):
        raise Unfit(f"{text!r} is no length of time, as 60s, 250ms, 5min, 1h or 1d")
    return int(length)


def duration_text(nanoseconds):
    """A length of time in the greatest unit of which it is a whole number."""
    unit = next((unit for unit in ("d", "h", "min", "s", "ms", "us") if nanoseconds % SIZES[unit] == 0), None)
    return f"{nanoseconds / 1000:g} us" if unit is None else f"{nanoseconds // SIZES[unit]} {unit}"
