"""The chart of a sum of two series, as the command `derive` draws it, and between which ends its values lie."""
import operator

from .decimals import MOST
from .picture import BitPicture
from .run import Ended, Refused
from .session import bounds_of
from .store import line_of

FACTOR = 10**9  # the greatest size of a factor
ROWS = 4000  # into so many parts a range is cut at once; of all numbers that a sample may be, 2 * 10^18, each part is a whole number


class Sum:
    """The sum of two series of a store, each times a whole number, in a window."""

    def __init__(self, store, names, factors, window):
        self.store, self.names, self.factors, self.window = store, names, factors, window

    def draw(self, w, h, low, high):
        """A raw PBM of its chart over the range from low to high. Raises Refused."""
        line = line_of(*self.names, *self.factors, w, h, *self.window, f"{low}..{high}")
        try:
            return self.store.shown("derive", given=line).read()
        except Ended as end:
            if end.status != 16:
                raise
            raise Refused(end.place % 256, 0, 0) from None

    def ends(self):
        """The least and the greatest of its samples, 0 and 0 where it has none."""
        with self.store.session() as session:
            views = [session.view(name, 1, 1, *self.window) for name in self.names]
        # The sum of what each series alone holds between.
        parts = [sorted((factor * view.lo, factor * view.hi)) for factor, view in zip(self.factors, views)]
        low, high = (max(-MOST, min(MOST, sum(ends))) for ends in zip(*parts))
        return self.end(low, high, bytes.find), self.end(low, high, bytes.rfind)

    def end(self, low, high, find):
        """The least sample where `find` is bytes.find, and the greatest where it is bytes.rfind, of those that all lie from low to high;
        0 where there are none. In a chart of one column the rows from that of the least to that of the greatest are black."""
        count = 0
        while count != 1:
            count = max(1, -(-(high - low) // ROWS))  # numbers of a row
            low = min(low, MOST - count * ROWS)
            pbm = self.draw(1, ROWS + 1, low, low + count * ROWS)
            row = find(pbm[: -ROWS - 2 : -1], b"\x80")
            if row < 0:
                return 0
            low, high = low + row * count, low + row * count + count - 1
        return low


def draw_sum(store, names, factors, size, times, bounds):
    """The picture of a sum, by the words of a store's `sum`."""
    records = [store.record(name, fresh=True) for name in names]
    if None in records:
        raise Refused(8, 0, 0)
    scale = max(record.scale for record in records)
    scaled = [operator.index(factor) * 10 ** (scale - record.scale) for factor, record in zip(factors, records)]
    if max(map(abs, scaled)) > FACTOR:
        raise ValueError(f"with the scale {scale} the factors are {scaled[0]} and {scaled[1]}: more than 10^9 in size")
    starts, ends = zip(*(store.window(record, *times) for record in records))
    drawn = Sum(store, names, scaled, (max(starts), min(ends)))
    low, high = drawn.ends() if bounds == "auto" else bounds_of(bounds, scale)
    picture = BitPicture(*size, low, high, drawn.draw(*size, low, high))
    picture.series = records[0]._replace(name=title(factors, names), scale=scale)
    picture.window, picture.unit = drawn.window, store.unit_of(records[0])
    return picture


def title(factors, names):
    """A sum as text, as in `inflow - 2 outflow`."""
    terms = [f"{'-' if factor < 0 else '+'} {'' if abs(factor) == 1 else f'{abs(factor)} '}{name}" for factor, name in zip(factors, names)]
    return " ".join(terms).removeprefix("+ ")
