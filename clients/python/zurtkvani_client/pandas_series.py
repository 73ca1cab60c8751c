"""Series of pandas whose index has dates, to the readings of a series."""
from decimal import Decimal

from .grids import Grid, find_grid
from .scales import find_scale
from .timestamps import UNITS
from .values import of_floats, whole_numbers

SAMPLE = 20_000  # values that tell a scale


def require_series(values):
    """Raises TypeError for what is no Series of numbers, and ValueError where one is infinite."""
    import numpy

    if not hasattr(values, "sort_index") or getattr(values, "ndim", 0) != 1:
        raise TypeError(f"a Series of pandas is wanted, and no {type(values).__name__}")
    try:
        reals = values.dropna().to_numpy("float64")
    except (TypeError, ValueError):
        raise TypeError("the Series' values are no numbers") from None
    if numpy.isinf(reals).any():
        raise ValueError("a value is infinite")


def nanoseconds(index):
    """The nanoseconds since 1970 of an index of dates; those without a zone are in UTC. Raises TypeError for another index, and ValueError
    where a date is missing."""
    if getattr(index, "dtype", None) is None or index.dtype.kind != "M":
        raise TypeError("the Series' index has no dates: see pandas.to_datetime")
    if index.hasnans:
        raise ValueError("a date is missing in the Series' index: drop its value first")
    return index.to_numpy("datetime64[ns]").astype("int64")


def grid_and_scale(values, scale, step, unit):
    """The grid and the scale of a Series' values, as far as they aren't named; the step counts the unit, seconds where none is named."""
    require_series(values)
    times = nanoseconds(values.index).tolist()
    step = None if step is None else step * UNITS[unit or "seconds"]
    grid = find_grid(times, step=step, unit=unit)
    if scale is None:
        kept = values.dropna().iloc[:SAMPLE].tolist()
        scale = find_scale(Decimal(str(value)) for value in kept)
    return grid, scale


def readings(values, record, unit):
    """Pairs of a slot's time and a whole number, or None, by rising time."""
    require_series(values)
    grid = Grid(record.start, record.step, unit)
    values = values.sort_index()
    floats = values.to_numpy(dtype="float64", na_value=float("nan")) if values.dtype.kind != "i" else None
    if floats is None:
        numbers = [number * 10**record.scale for number in whole_numbers(values, 0)]
    else:
        numbers = of_floats(floats, record.scale)
    slots = (nanoseconds(values.index) - grid.first + grid.gap // 2) // grid.gap
    if len(slots) and slots[0] < 0:
        raise ValueError(f"{values.index[0]} lies before the start")
    if len(slots) > 1 and not (slots[1:] > slots[:-1]).all():
        raise ValueError("two values go to one slot: resample the Series first")
    return zip((slots * record.step + record.start).tolist(), numbers)
