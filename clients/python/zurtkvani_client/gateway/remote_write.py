"""Prometheus' remote write: the fields of its messages, of protobuf, that make points.

    WriteRequest  1: TimeSeries, again and again
    TimeSeries    1: Label, again and again; 2: Sample, again and again
    Label         1: its name, 2: its value, UTF-8
    Sample        1: its value, a double; 2: its time, an int64 of milliseconds
"""
import math
import struct

from .intake import Point
from .labels import key_of

MOST_LABELS = 500  # of a series
VARINT, EIGHT, BYTES, FOUR = 0, 1, 2, 5  # kinds of a field


class Bad(Exception):
    """Why the bytes are no such message."""


def varint(data, at):
    """The number that stands at an offset, and the offset behind it."""
    number = 0
    for place in range(10):
        if at >= len(data):
            raise Bad("the message ends within a field")
        byte = data[at]
        at += 1
        number |= (byte & 127) << 7 * place
        if byte < 128:
            return number, at
    raise Bad("a number has more than ten bytes")


def fields(data):
    """The fields of a message: pairs of a number and what it holds, bytes or a whole number."""
    if isinstance(data, int):
        raise Bad("a number stands where a message belongs")
    at = 0
    while at < len(data):
        tag, at = varint(data, at)
        number, kind = tag >> 3, tag & 7
        if kind == VARINT:
            value, at = varint(data, at)
        elif kind in (EIGHT, FOUR, BYTES):
            length, at = (8, at) if kind == EIGHT else (4, at) if kind == FOUR else varint(data, at)
            value, at = data[at : at + length], at + length
            if at > len(data):
                raise Bad("the message ends within a field")
        else:
            raise Bad(f"a field has the kind {kind}")
        yield number, value


def labels_of(data):
    name = value = b""
    for number, held in fields(data):
        name, value = (held, value) if number == 1 else (name, held) if number == 2 else (name, value)
    try:
        return bytes(name).decode(), bytes(value).decode()
    except (UnicodeDecodeError, TypeError):
        raise Bad("a label isn't UTF-8") from None


def sample_of(data):
    """The value and the time, in milliseconds, of a sample."""
    value, time = 0.0, 0
    for number, held in fields(data):
        if number == 1:
            if not isinstance(held, (bytes, memoryview)) or len(held) != 8:
                raise Bad("a value is no double")
            (value,) = struct.unpack("<d", held)
        elif number == 2:
            if not isinstance(held, int):
                raise Bad("a time is no number")
            time = held - 2**64 if held >= 2**63 else held
    return value, time


def points(message, outcome):
    """The points of a message, and None for what is none. NaN, by which Prometheus marks that a series ends, is left out, and so are infinite
    values."""
    for number, held in fields(memoryview(message)):
        if number == 1:
            yield from points_of_series(held, outcome)
        yield None


def points_of_series(data, outcome):
    labels, key = {}, None
    for number, held in fields(data):
        if number == 1:
            if key is not None or len(labels) >= MOST_LABELS:
                raise Bad(f"a series has labels behind its samples, or more than {MOST_LABELS}")
            name, value = labels_of(held)
            labels[name] = value
        elif number == 2:
            key = key or key_of(labels)
            if not key:
                raise Bad("a series has no labels")
            value, time = sample_of(held)
            if math.isfinite(value):
                yield Point(key, None, time * 10**6, text_of(value))
            else:
                outcome.left_out += 1
                yield None


def text_of(value):
    """A double as its shortest decimal; a whole one as a whole number."""
    return int(value) if value.is_integer() and abs(value) < 10**18 else repr(value)
