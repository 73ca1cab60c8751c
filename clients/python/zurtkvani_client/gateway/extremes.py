"""The least and the greatest value of each column of a view, by the coefficients of its frame.

A view of one row whose range is one number is sent no more than the keys that lie across the ends of columns: docs/FORMATS.md, "From frames to
pictures". So far fewer pages are read for it than for rows, which have the first and the last value of each column too. All keys of a level are
split at once by numpy; where that isn't installed such views aren't asked for.
"""
import struct

from .. import frames
from ..run import Refused
from .child import done_or_refused

try:
    import numpy
except ImportError:
    numpy = None

CACHE = 131_072  # coefficients that a session's client may keep: no view of 4,096 columns wants so many
HEAD = struct.Struct(">HHHqqqqqIQBqqI")  # of a frame, behind its session
HEAD_AT, ITEMS_AT = 9, 88
ITEM = [("key", ">u8"), ("flags", "u1"), ("dmin", ">i8"), ("dmax", ">i8")]
LEVEL = 40  # bits of a key below its level
LEFT, RIGHT = 1, 2  # flags of a key of which one half alone has a value


def view_lines(session, name, columns, t0, t1):
    """The lines of a view for a client that holds nothing yet."""
    return [b"open %d %d" % (session, CACHE), f"view {session} {name} {columns} 1 {t0} {t1} 0..0".encode(), b"close %d" % session]


def pairs_of(frame, is_greatest):
    """Of a view whose columns are whole numbers wide, each column that has a value with its least or its greatest one. Raises Refused, and Stopped where
    a coefficient is missing."""
    if frame[4] != frames.VIEW:
        raise Refused(*done_or_refused(frame))
    _, w, _, t0, t1, _, _, start, step, slots, has_value, least, greatest, count = HEAD.unpack_from(frame, HEAD_AT)
    first, behind = max(0, -((start - t0) // step)), min(slots, -((start - t1) // step))
    if not has_value or first >= behind:
        return []
    top = next(7 * k for k in range(1, 6) if 128**k >= slots)
    begins, ends, numbers = pieces(numpy.frombuffer(frame, ITEM, count, ITEMS_AT), top, greatest if is_greatest else least, is_greatest)
    shown = numpy.flatnonzero((begins < behind) & (ends > first))
    begins, lasts = begins.take(shown), ends.take(shown) - 1
    columns, columns_of_lasts = ((slots * step + (start - t0)) // ((t1 - t0) // w) for slots in (begins, lasts))
    if (begins < first).any() or (lasts >= behind).any() or (columns != columns_of_lasts).any():
        raise frames.Stopped("a coefficient is missing")
    order = numpy.argsort(columns, kind="stable")
    columns, numbers = columns.take(order), numbers.take(shown.take(order))
    runs = numpy.flatnonzero(numpy.diff(columns, prepend=-1))
    found = (numpy.maximum if is_greatest else numpy.minimum).reduceat(numbers, runs)
    return list(zip(columns.take(runs).tolist(), found.tolist()))


def pieces(items, top, number, is_greatest):
    """The keys that have a value and aren't split, of those from the top level down: of each its first slot, the one behind its last, and its least
    or greatest value, of which that of all is given."""
    if not len(items):
        return numpy.array([0]), numpy.array([1 << top]), numpy.array([number])
    keys, flags, shifts = (items[name].astype(numpy.int64) for name in ("key", "flags", "dmax" if is_greatest else "dmin"))
    levels, indices = keys >> LEVEL, keys & (1 << LEVEL) - 1
    codes = (top - levels << LEVEL) + indices  # these rise, and so do those of the halves
    halves = numpy.stack((codes + indices, codes + indices + 1), 1).reshape(-1) + (1 << LEVEL)
    places = numpy.searchsorted(halves, codes[1:])  # of all keys but the first one, among the halves of the keys before
    if codes[0] or not numpy.array_equal(halves.take(places, mode="clip"), codes[1:]):
        raise frames.Stopped("a coefficient is missing")
    is_whole = numpy.stack((flags != RIGHT, flags != LEFT), 1).reshape(-1)
    is_whole[places] = False
    whole = numpy.flatnonzero(is_whole)
    sizes, indices = levels.take(whole >> 1) - 1, halves.take(whole) & (1 << LEVEL) - 1
    numbers = halved(levels, numpy.minimum if is_greatest else numpy.maximum, shifts, places, number)
    return indices << sizes, indices + 1 << sizes, numbers.take(whole)


def halved(levels, less, shifts, places, number):
    """The least or greatest values of the halves of keys, found level by level."""
    numbers, found = numpy.empty(len(levels), numpy.int64), less(numpy.stack((shifts, -shifts), 1), 0)
    numbers[0], flat = number, found.reshape(-1)
    bounds = [0, *(numpy.flatnonzero(numpy.diff(levels)) + 1).tolist(), len(levels)]
    for at, end, behind in zip(bounds, bounds[1:], [*bounds[2:], len(levels)]):
        found[at:end] += numbers[at:end, None]
        numbers[end:behind] = flat.take(places[end - 1 : behind - 1])
    return flat
