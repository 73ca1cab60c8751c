"""The grid of a series: its start and step, found from the times of readings, and the slot that a time goes to."""
import math
import statistics

from .timestamps import DAY, UNITS, date_text
from .unfit import Unfit

LAST_SLOT = 2**35 - 1
MOST_STEP = 2**31
SECOND, MINUTE, HOUR = 10**9, 60 * 10**9, 3600 * 10**9
# Steps that loggers have, in nanoseconds.
USUAL_STEPS = [
    *(count * unit for unit in (10**3, 10**6) for count in (1, 2, 5, 10, 20, 25, 50, 100, 200, 250, 500)),
    *(count * unit for unit in (SECOND, MINUTE) for count in (1, 2, 3, 4, 5, 6, 10, 12, 15, 20, 30)),
    *(count * HOUR for count in (1, 2, 3, 4, 6, 8, 12)),
    DAY,
    7 * DAY,
]
EVEN = (DAY, HOUR, MINUTE, SECOND, 10**8, 10**7, 10**6, 10**5, 10**4, 10**3, 1)


class Grid:
    """The slots of one or more series. `start` and `step` count a unit; `first` and `gap` are the same in nanoseconds.

    `snap` is "nearest", "floor" or "none": to which slot a time goes that is none's. One that is farther from it than the tolerance, in
    nanoseconds, goes to none. Half a step from two slots is nearest to the later one.
    """

    def __init__(self, start, step, unit, snap="nearest", tolerance=None):
        self.start, self.step, self.unit = start, step, unit
        self.first, self.gap = start * UNITS[unit], step * UNITS[unit]
        self.lead = self.gap // 2 if snap == "nearest" else 0  # by how much a slot begins to be the one before its time
        self.tolerance = 0 if snap == "none" else self.gap if tolerance is None else tolerance

    def place(self, times):
        """The time of the slot, in the unit, that each of some times in nanoseconds goes to; the indices of those that aren't their
        slot's; and by the index of one that goes to none, why: it is too far from each, or there is no such slot."""
        first, gap, size = self.first - self.lead, self.gap, UNITS[self.unit]
        slots = [(time - first) // gap for time in times]
        placed = [self.start + slot * self.step for slot in slots]
        moved = [at for at, (time, home) in enumerate(zip(times, placed)) if time != home * size]
        unfit = {}
        for at in moved if self.tolerance < self.gap else ():
            if abs(times[at] - placed[at] * size) > self.tolerance:
                unfit[at] = Unfit(f"{date_text(times[at])} lies between two slots")
        if min(slots) < 0 or max(slots) > LAST_SLOT:
            for at, slot in enumerate(slots):
                if not 0 <= slot <= LAST_SLOT:
                    where = "before the start" if slot < 0 else "too far behind the start"
                    unfit.setdefault(at, Unfit(f"{date_text(times[at])} lies {where}"))
        return placed, moved, unfit


def find_step(times):
    """The step of readings at rising times, in nanoseconds: what all gaps are multiples of, or, where that is far shorter than the usual
    gap, the usual step that the gaps swing about."""
    gaps = [later - earlier for earlier, later in zip(times, times[1:])]
    if not gaps:
        raise Unfit("a step can't be found from one time: name it, as --step 60s")
    common, middle = math.gcd(*gaps), statistics.median_low(gaps)
    usual = min(USUAL_STEPS, key=lambda step: abs(step - middle) / step)
    if middle > 8 * common and 10 * abs(usual - middle) <= usual and swing_about(gaps, usual):
        return usual
    return common


def swing_about(gaps, step):
    """Whether nine of ten gaps are within two fifths of a step of a whole number of them, and of one at least."""
    near = sum(gap >= step / 2 and 5 * abs((gap + step // 2) % step - step // 2) <= 2 * step for gap in gaps)
    return 10 * near >= 9 * len(gaps)


def find_start(times, step, snap):
    """The start of a grid for rising times, in nanoseconds: the roundest moment about which they swing."""
    if snap == "floor":
        return times[0] // step * step
    lags = [(time - times[0] + step // 2) % step - step // 2 for time in times]
    low, high = times[0] + min(lags), times[0] + max(lags)
    if DAY % step == 0 and -(-low // step) * step <= high:
        return -(-low // step) * step
    return next(-(-low // even) * even for even in EVEN if -(-low // even) * even <= high)


def unit_for(*spans):
    """The greatest unit of which spans of nanoseconds are whole numbers."""
    units = [unit for unit in UNITS if unit != "nanoseconds"]
    found = next((unit for unit in units if not any(span % UNITS[unit] for span in spans)), None)
    if found is None:
        raise Unfit("the times are finer than a microsecond: name a step, as --step 1ms")
    return found


def find_grid(times, snap="nearest", tolerance=None, step=None, start=None, unit=None):
    """The grid of readings at some times in nanoseconds, as far as it isn't named; step and start are in nanoseconds too."""
    times = sorted(set(times))
    step = find_step(times) if step is None else step
    start = find_start(times, step, snap) if start is None else start
    unit = unit or unit_for(start, step)
    if start % UNITS[unit] or step % UNITS[unit]:
        raise Unfit(f"the start {date_text(start)} and the step of {step / 10**9:g} s aren't whole {unit}")
    if not 1 <= step // UNITS[unit] <= MOST_STEP:
        raise Unfit(f"a step is 1 to {MOST_STEP} {unit}")
    return Grid(start // UNITS[unit], step // UNITS[unit], unit, snap, tolerance)
