"""Values of Python, numpy and pandas to the whole numbers of a series: lists in which None stands for a missing one."""
import math
import operator
from collections.abc import Iterable, Mapping, Set
from decimal import Decimal

from .decimals import EXACT, MOST


def whole_numbers(values, scale):
    """The whole numbers of some values: whole numbers as they are, and floats and decimals, which are real values, times 10^scale, rounded
    half to even. None, NaN, pandas' NA and what is masked are missing.

    Raises TypeError where there is anything else, or whole numbers among floats in a list, whose meaning isn't told; ValueError where a
    real value is infinite or comes out above 10^18 in size.
    """
    if getattr(values, "ndim", 1) != 1:
        raise TypeError(f"values are a list, or have one dimension, and not {values.ndim}")
    kind = getattr(getattr(values, "dtype", None), "kind", "O")
    if kind == "f":
        return of_floats(values, scale)
    if isinstance(values, (str, bytes, bytearray, Mapping, Set)) or not isinstance(values, Iterable):
        raise TypeError(f"values are a list, an array or a Series, and no {type(values).__name__}")
    listed = values.tolist() if hasattr(values, "tolist") else list(values)
    return of_list([None if is_missing(value) else value for value in listed], scale)


def is_missing(value):
    """Whether a value is None, NaN or pandas' NA: NaN doesn't equal itself, and NA is neither true nor false."""
    try:
        return value is None or not value == value
    except TypeError:
        return True


def of_list(listed, scale):
    are_real = {isinstance(value, (float, Decimal)) for value in listed if value is not None}
    if are_real == {True, False}:
        raise TypeError("whole numbers, which count the last decimal, and real values stand in one list: give all of them as floats")
    if are_real == {True}:
        return [None if value is None else of_real(value, scale) for value in listed]
    return [None if value is None else operator.index(value) for value in listed]


def of_real(value, scale):
    """The whole number of one real value. A float is rounded as numpy and pandas round it."""
    if not math.isfinite(value):
        raise ValueError(f"{value} is no value")
    number = int(value.scaleb(scale, EXACT).to_integral_value(context=EXACT)) if isinstance(value, Decimal) else round(value * 10**scale)
    if not -MOST <= number <= MOST:
        raise ValueError(f"{value} is too large for the scale {scale}")
    return number


def of_floats(values, scale):
    """The whole numbers of an array or a Series of floats."""
    import numpy

    masked = numpy.ma.getmaskarray(values) if numpy.ma.isMaskedArray(values) else None
    real = numpy.asarray(numpy.ma.getdata(values) if masked is not None else values, dtype=numpy.float64)
    missing = numpy.isnan(real) if masked is None else numpy.isnan(real) | masked
    scaled = numpy.rint(numpy.where(missing, 0.0, real) * 10.0**scale)
    if not (numpy.abs(scaled) <= MOST).all():
        raise ValueError(f"a value is infinite, or too large for the scale {scale}")
    listed = scaled.astype(numpy.int64).tolist()
    for at in numpy.flatnonzero(missing).tolist():
        listed[at] = None
    return listed
