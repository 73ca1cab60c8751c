"""What a server tells without a picture: its series, stored values, and sweeps."""
import string
from collections import namedtuple

from .fields import MOST, MOST_SLOTS

NAME_BYTES = 31
NAMED = frozenset((string.ascii_letters + string.digits + "_.-").encode())
MOST_VALUES = 4096  # of a frame, and the slots from its first one to its last one

Catalog = namedtuple("Catalog", "total used series")
Listed = namedtuple("Listed", "name scale start step slots span")  # the span is None where no value is stored
Values = namedtuple("Values", "series next runs")  # next is None where none is left; a run is its first slot and its values
Swept = namedtuple("Swept", "clears used more")


def read_catalog(fields, count):
    """A catalog of so many series, behind its kind."""
    total, used = fields.number(4, 0, 2**32 - 1), fields.number(4, 0, 2**32 - 1)
    fields.number(2, count, count)
    return Catalog(total, used, [read_listed(fields) for _ in range(count)])


def read_listed(fields):
    size = fields.number(1, 1, NAME_BYTES)
    name = fields.data(NAME_BYTES)
    fields.require(NAMED.issuperset(name[:size]) and not any(name[size:]), NAME_BYTES)
    scale = fields.number(1, 0, 9)
    start, step, slots = read_axis(fields)
    return Listed(name[:size].decode(), scale, start, step, slots, read_span(fields, slots))


def read_axis(fields):
    """The time of slot 0, the time from one slot to the next, and the number of slots. The last one stands no later than 2 * 10^18."""
    start = fields.number(8, -MOST, MOST)
    step = fields.number(4, 1, 2**31)
    return start, step, fields.number(8, 0, min(MOST_SLOTS, (2 * MOST - start) // step + 1))


def read_span(fields, slots):
    """The least and the greatest stored value, or None where there is none."""
    size = MOST * fields.number(1, 0, 1 if slots else 0)
    least = fields.number(8, -size, size)
    greatest = fields.number(8, least, size)
    return (least, greatest) if size else None


def read_values(fields, count):
    """Stored values of which the runs and the values take so many times eight bytes, behind their kind."""
    series = fields.number(2, 0, 511)
    more = fields.number(1, 0, 1)
    time = fields.number(8, -2 * MOST * more, 2 * MOST * more)
    runs = fields.number(2, 0, 2**16 - 1)
    left = fields.number(2, 0, 2**16 - 1)
    fields.require(2 * runs + left == count and runs <= left <= MOST_VALUES and (runs or not left), 2)
    slots = list(read_runs(fields, runs, left))
    return Values(series, time if more else None, [(first, [fields.number(8, -MOST, MOST) for _ in range(many)]) for first, many in slots])


def read_runs(fields, runs, left):
    """The first slot of each run, and how many it has; they don't touch, and have so many values together."""
    first, limit = 0, MOST_SLOTS
    for behind in reversed(range(runs)):
        first = fields.number(8, first, limit - 1)
        many = fields.number(8, 1, 2**64 - 1)
        fields.require((many < left if behind else many == left) and first + many <= limit, 8)
        yield first, many
        first, limit, left = first + many + 1, min(limit, first + MOST_VALUES), left - many


def read_swept(fields, _count):
    """What a sweep did, behind its kind."""
    return Swept(fields.number(2, 0, 64), fields.number(4, 0, 2**32 - 1), fields.number(1, 0, 1) == 1)
