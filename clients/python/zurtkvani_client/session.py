"""A session of a store: the charts that one client is shown, one after the other."""
import operator

from .run import Refused
from .values import of_real

WIDTH, HEIGHT = 1000, 300


class Session:
    """A session of a store, until it is closed: at the end of a `with`, or by `close`."""

    def __init__(self, store, number, cache):
        self.store, self.number, self.cache = store, number, cache
        self.series = self.window = self.words = None  # of what was answered last

    def __enter__(self):
        return self

    def __exit__(self, *_):
        self.close()

    def view(self, name, w=WIDTH, h=HEIGHT, t0=None, t1=None, range="auto", where=None):
        """Draws a series on w by h pixels, 1 to 4,096 each, from t0 to below t1: whole numbers of the series' unit, or dates; where they
        aren't named from its start to behind its last slot.

        The range is "auto", from the least value to the greatest, or a pair of its ends: whole numbers count the series' last decimal, and
        where one is a float both are real values.
        """
        series = self.store.record(name, fresh=t0 is None or t1 is None)
        words = (name, w, h), (range_text(range, series.scale if series else 0), *(() if where is None else ("where", where)))
        return self._draw(series, self.store.window(series, t0, t1), words)

    def zoom(self, t0, t1):
        """Draws what was drawn last, from t0 to below t1."""
        return self._draw_again(self.store.window(self.series, t0, t1))

    def pan(self, by):
        """Draws what was drawn last, later by so much, in the series' unit."""
        return self._draw_again([end + by for end in self.window or ()])

    def close(self):
        self.store.forget(self)

    def _draw_again(self, window):
        if self.words is None:
            raise Refused(16, 0, 0)
        return self._draw(self.series, window, self.words)

    def _draw(self, series, window, words):
        """A picture, with what its axes show. A zoom and a pan are asked for as views, since a run that was begun anew knows of none."""
        what, how = words
        _, picture = self.store.answer("view", self.number, *what, *window, *how)
        self.series, self.window, self.words = series, tuple(window), words
        picture.series, picture.window, picture.unit = series, self.window, self.store.unit_of(series)
        return picture


def range_text(bounds, scale):
    """A range as a request spells it: "auto", or the ends of a pair."""
    if not isinstance(bounds, str) and len(bounds) != 2:
        raise ValueError("a range is \"auto\", or a pair of its ends")
    return bounds if isinstance(bounds, str) else "{}..{}".format(*bounds_of(bounds, scale))


def bounds_of(bounds, scale):
    """The ends of a range as whole numbers."""
    if any(isinstance(bound, float) for bound in bounds):
        return [of_real(float(bound), scale) for bound in bounds]
    return list(map(operator.index, bounds))
