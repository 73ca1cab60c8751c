"""Which columns of a table hold the times and the values, and what their series are called."""
import re

from .decimals import MISSING, decimal_of
from .timestamps import NUMBER
from .unfit import Unfit

TIME_NAMES = ("time", "timestamp", "datetime", "date", "when", "ts", "t", "zeit", "datum", "zeitstempel")
NAME_LENGTH = 31
TO_NAME_TIMES = "name the column of the times, as --time 1, and the form of its dates, as --form '%d.%m.%Y %H:%M'"


class Column:
    """A column of values, by its number from 0, and the series that takes them."""

    def __init__(self, index, series):
        self.index, self.series = index, series


def header_of(fields, is_named):
    """The names in a first row, or None where it is data: a field of it begins as a number or a date does, or none says anything. Where
    columns are asked for by name it has to be names."""
    names = [field.strip() for field in fields]
    is_data = not any(names) or any(name[0] in "0123456789+-.," for name in names if name)
    return names if is_named or not is_data else None


def index_of(word, names, count):
    """The column, from 0, that a word says: a name of the header, or a number from 1."""
    if names and word in names:
        return names.index(word)
    if word.isdigit() and 1 <= int(word) <= count:
        return int(word) - 1
    known = f"; there are {', '.join(names)}" if names else ""
    raise Unfit(f"there is no column {word!r} among {count}{known}")


def time_column(names, rows, read):
    """The column of the times: that of a usual name, else the first that reads as dates, else the first that reads as numbers."""
    lowered = [name.lower() for name in names or ()]
    named = next((lowered.index(name) for name in TIME_NAMES if name in lowered), None)
    if named is not None:
        return named
    readable = None
    for index in range(len(names or max(rows, key=len))):
        if share(rows, index, lambda texts: len(texts) - len(read.all(texts)[1])) > 0.5:
            if not share(rows, index, count_numbers) > 0.5:
                return index
            readable = index if readable is None else readable
    if readable is None:
        raise Unfit(f"no column has dates in ISO 8601 or numbers: {TO_NAME_TIMES}")
    return readable


def share(rows, index, count):
    """The part of the rows whose field is one of those that `count` counts."""
    texts = [fields[index].strip() for fields in rows if index < len(fields)]
    return count(texts) / len(rows) if texts else 0


def count_numbers(texts):
    """How many texts are numbers alone, and no dates."""
    return sum(map(bool, map(NUMBER.fullmatch, texts)))


def has_values(rows, index, spelled):
    """Whether a column has a value in any row, or none in each."""
    texts = [fields[index].strip() for fields in rows if index < len(fields)]
    told = [text for text in texts if text.lower() not in MISSING]
    return not told or any(is_value(spelled(text)) for text in told)


def is_value(text):
    try:
        decimal_of(text)
        return True
    except Unfit:
        return False


def has_decimal_commas(rows, indices):
    """Whether values are spelled as 21,5: some are, and none has a point."""
    texts = [fields[index].strip() for fields in rows for index in indices if index < len(fields)]
    spelled = [text for text in texts if "," in text]
    return any(re.fullmatch(r"[+-]?\d+,\d+", text) for text in spelled) and not any("." in text for text in texts)


def series_name(text):
    """A name for a series of a column's: other signs than letters, digits, `_`, `.` and `-` become `_`."""
    return re.sub(r"[^A-Za-z0-9_.-]+", "_", text).strip("_")[:NAME_LENGTH]
