"""Times as texts, to whole nanoseconds since 1970-01-01T00:00:00Z and back."""
import contextlib
import re
from datetime import datetime, timedelta, timezone
from decimal import Decimal

from .unfit import Unfit

# How many nanoseconds a unit of time has.
UNITS = {"seconds": 10**9, "milliseconds": 10**6, "microseconds": 10**3, "nanoseconds": 1}
DAY = 86_400 * 10**9
EPOCH = datetime(1970, 1, 1)
UTC_EPOCH = EPOCH.replace(tzinfo=timezone.utc)
DATE = re.compile(
    r"(\d{4})-(\d\d)-(\d\d)(?:[T ](\d\d):(\d\d)(?::(\d\d)(?:[.,](\d{1,9}))?)?\s*(?:(Z)|([+-])(\d\d):?(\d\d)?)?)?", re.ASCII | re.IGNORECASE
)
NUMBER = re.compile(r"[+-]?\d{1,19}(?:\.\d{1,9})?", re.ASCII)


def unit_of(time):
    """The unit that a number of time since 1970 is taken to have, by its size: seconds below 10^11, which is the year 5138, milliseconds
    below 10^14, microseconds below 10^17, and then nanoseconds."""
    sizes = zip((10**11, 10**14, 10**17), UNITS)
    return next((unit for least, unit in sizes if abs(time) < least), "nanoseconds")


def nanoseconds_of(since):
    """The nanoseconds of a timedelta."""
    return ((since.days * 86_400 + since.seconds) * 10**6 + since.microseconds) * 1000


def date_text(time):
    """A time in nanoseconds as a date in UTC, with no more decimals than it needs."""
    seconds, rest = divmod(time, 10**9)
    try:
        date = (EPOCH + timedelta(seconds=seconds)).isoformat()
    except OverflowError:
        return f"{seconds} seconds since 1970"
    return date + (f".{rest:09}".rstrip("0") if rest else "") + "Z"


def is_plain(texts, length):
    """Whether Python's own reader of dates does what this one does with texts of one length, which stand one behind the other: it drops a
    seventh decimal without a word, and takes any sign between the date and the time."""
    year, month, day, hour, decimals = (set(texts[at::length]) if at < length else set() for at in (4, 7, 10, 13, 26))
    return year == month == {"-"} and day <= {"T", " "} and hour <= {":"} and not any(map(str.isdigit, decimals))


def iso_date(text):
    """The date of a text in ISO 8601, without a zone where none is said, and the nanoseconds behind its microsecond."""
    if is_plain(text, len(text)):
        try:
            return datetime.fromisoformat(text), 0
        except ValueError:
            pass
    match = DATE.fullmatch(text)
    if not match:
        raise Unfit(f"{text!r} is no time")
    *parts, rest, at_zero, sign, hours, minutes = match.groups()
    ahead = timedelta(hours=int(hours or 0), minutes=int(minutes or 0)) * (-1 if sign == "-" else 1)
    nanoseconds = int((rest or "0").ljust(9, "0"))
    try:
        zone = timezone(ahead) if at_zero or sign else None
        return datetime(*(int(part or 0) for part in parts), nanoseconds // 1000, zone), nanoseconds % 1000
    except ValueError:
        raise Unfit(f"{text!r} is no time") from None


class TimeReader:
    """Reads a column of times: numbers of a unit since 1970, and dates in ISO 8601 or by a form of `strptime`.

    A date that says no offset is in the zone, one of zoneinfo, or in UTC where none is named. Of an hour that a zone has twice it is in the
    first one, unless the row before is as late.
    """

    def __init__(self, unit="seconds", form=None, zone=None):
        self.size, self.form, self.zone = UNITS[unit], form, zone
        self.before = None

    def __call__(self, text):
        """The nanoseconds since 1970 of a text. Raises Unfit where it is no time."""
        if self.form is not None:
            date, rest = self.formed(text), 0
        elif text[4:5] != "-" and NUMBER.fullmatch(text):
            return self.number(text)
        else:
            date, rest = iso_date(text)
        if date.tzinfo is not None:
            return nanoseconds_of(date - UTC_EPOCH) + rest
        if self.zone is None:
            return nanoseconds_of(date - EPOCH) + rest
        return self.placed(date, text) + rest

    def all(self, texts):
        """What each text gives, None where that is no time; and by the index of such a one, why."""
        if texts[0] != texts[0].strip():
            texts = list(map(str.strip, texts))
        times = self.numbers(texts) if self.form is None else None
        dates = self.dates(texts) if self.form is None and times is None else None
        if dates and (self.zone is None or dates[0].tzinfo):
            with contextlib.suppress(TypeError):  # of which one says an offset, and another none
                epoch = UTC_EPOCH if dates[0].tzinfo else EPOCH
                times = list(map(nanoseconds_of, [date - epoch for date in dates]))
        return self.one_by_one(texts, dates) if times is None else (times, {})

    def one_by_one(self, texts, dates):
        """What `all` gives, text by text; with the dates that they spell, where these were read and are to be placed in the zone."""
        times, unfit = [None] * len(texts), {}
        is_placed = dates and self.zone is not None and not any(date.tzinfo for date in dates)
        for at, text in enumerate(texts):
            try:
                times[at] = self.placed(dates[at], text) if is_placed else self(text.strip())
            except Unfit as why:
                unfit[at] = why
        return times, unfit

    def numbers(self, texts):
        """The nanoseconds of whole numbers, or of numbers of one length with a point at one place; None where the texts are others."""
        joined, length, point = "".join(texts), len(texts[0]), texts[0].find(".")
        if joined.isascii() and joined.isdigit() and all(texts) and max(map(len, texts)) <= 19:
            return [int(text) * self.size for text in texts]
        digits, has_points = joined.replace(".", ""), point > 0 and joined[point::length] == "." * len(texts)
        is_one = has_points and len(digits) == (length - 1) * len(texts) and {*map(len, texts)} == {length} and NUMBER.fullmatch(texts[0])
        if not (is_one and digits.isascii() and digits.isdigit()) or self.size % 10 ** (length - point - 1):
            return None
        size = self.size // 10 ** (length - point - 1)
        return [int(text.replace(".", "")) * size for text in texts]

    @staticmethod
    def dates(texts):
        """The dates of texts of one length that Python's own reader takes; None where there is another."""
        length = len(texts[0])
        if {*map(len, texts)} == {length} and is_plain("".join(texts), length):
            with contextlib.suppress(ValueError):
                return list(map(datetime.fromisoformat, texts))
        return None

    def number(self, text):
        if text.isdigit():
            return int(text) * self.size
        time = Decimal(text) * self.size
        if time != int(time):
            raise Unfit(f"{text!r} is finer than a nanosecond")
        return int(time)

    def formed(self, text):
        try:
            return datetime.strptime(text, self.form)
        except ValueError:
            raise Unfit(f"{text!r} isn't of the form {self.form!r}") from None

    def placed(self, date, text):
        """The nanoseconds of a date in the zone."""
        early, late = (date.replace(tzinfo=self.zone, fold=fold) for fold in (0, 1))
        if early.utcoffset() < late.utcoffset():
            raise Unfit(f"{text!r} is left out by the clocks of {self.zone}")
        time = nanoseconds_of(early - UTC_EPOCH)
        if early.utcoffset() > late.utcoffset() and self.before is not None and time <= self.before:
            time = nanoseconds_of(late - UTC_EPOCH)
        self.before = time
        return time
