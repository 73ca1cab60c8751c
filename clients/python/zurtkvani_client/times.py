"""Times as Python and pandas have them, to whole numbers of a unit since 1970 and back."""
import datetime
import operator

from .timestamps import UNITS, UTC_EPOCH, TimeReader, nanoseconds_of


def whole_time(time, unit):
    """A time as a whole number of a unit since 1970. A whole number stays as it is; a date without a zone, or one as text in ISO
    8601, is in UTC.

    Raises ValueError where a date is no whole number of the unit.
    """
    if hasattr(time, "__index__"):
        return operator.index(time)
    whole, rest = divmod(nanoseconds_at(time), UNITS[unit])
    if rest:
        raise ValueError(f"{time} is no whole number of {unit}")
    return whole


def nanoseconds_at(time):
    """The nanoseconds since 1970 of a date: a datetime, a Timestamp of pandas, a datetime64 of numpy, or a text in ISO 8601."""
    if isinstance(time, str):
        return TimeReader()(time)
    if hasattr(time, "asm8"):
        time = time.asm8  # a Timestamp of pandas; its datetime64 is in UTC
    if hasattr(time, "dtype"):
        return int(time.astype("datetime64[ns]").astype("int64"))
    if isinstance(time, datetime.datetime):
        return nanoseconds_of((time if time.tzinfo else time.replace(tzinfo=datetime.timezone.utc)) - UTC_EPOCH)
    if isinstance(time, datetime.date):
        return nanoseconds_of(datetime.datetime(time.year, time.month, time.day, tzinfo=datetime.timezone.utc) - UTC_EPOCH)
    raise TypeError(f"{time!r} is no time: give a whole number, a date or a text in ISO 8601")
