"""What a series has within windows of time: by views whose columns are the windows, or parts of them, or by its values.

A window ends with a time and holds what lies so long before it: later than its end less its length, and no later than its end. All that is read
here is exact: a view tells the least, the greatest and the last value of each column.
"""
import asyncio
import collections
import math
import operator
from itertools import accumulate, islice

from . import child, extremes

COLUMNS = 4096  # of a view, and slots of which one line tells the values: those from one multiple of that to the next
MOST_PARTS = 64 * COLUMNS
MOST_LOST = 3
TURN, FEW = 16, 4  # views that are asked for at once; and of those without rows, whose frames are larger
LEAST_COST = 16  # of a view, as many rows cost
LEAST, GREATEST, LAST = "least", "greatest", "last"  # of a window's values; and where a row has them
PLACES = {LEAST: 2, GREATEST: 3, LAST: 4}
WIDE = 256  # slots of a column from which views without rows are quicker

Windows = collections.namedtuple("Windows", "end step count length")  # the first end, and from one to the next, in nanoseconds


class TooMuch(Exception):
    """A query would read more than it may."""


class Reads:
    """What one query reads, its limits, and the ways that it took."""

    def __init__(self, counts, most_values, seconds):
        self.counts, self.left, self.seconds, self.ways = counts, most_values, seconds, set()

    def spend(self, count):
        self.left -= count
        if self.left < 0:
            raise TooMuch("the query reads too much: ask for fewer series, a shorter time, or larger steps")

    async def ask(self, keeper, lines):
        """The frames of lines."""
        for at in range(MOST_LOST):
            try:
                return await keeper.ask(lines, self.seconds)
            except child.Lost:
                await asyncio.sleep(0.1 * at)
        raise child.Down("the store's run ends before it answers")

    async def told(self, keeper, asked, told, turn=TURN):
        """What each view, or each line of values, tells: a list of lines, of whose frames it is the middle one that counts. A few are asked for at a
        time, all in one turn, so that others have theirs."""
        found = []
        for at in range(0, len(asked), turn):
            part = asked[at : at + turn]
            self.spend(LEAST_COST * len(part))
            self.counts.add("views_total", len(part))
            frames = iter(await self.ask(keeper, [line for lines in part for line in lines]))
            for lines in part:
                own = list(islice(frames, len(lines)))
                found.append(told(own[len(own) // 2]))
                self.spend(len(found[-1]))
                await asyncio.sleep(0)
        return found

    async def columns(self, known, t0, width, count, what):
        """The columns from t0 on, each so wide in the series' unit, that have a value: pairs of their number and their least, greatest or last value."""
        if not known.slots:
            return []
        last = known.record.start + (known.slots - 1) * known.record.step
        first, behind = max(0, (known.record.start - t0) // width), min(count, (last - t0) // width + 1)
        parts = [(at, min(COLUMNS, behind - at)) for at in range(first, behind, COLUMNS)]
        spans = [(part, t0 + at * width, t0 + (at + part) * width) for at, part in parts]
        if what != LAST and width >= WIDE * known.record.step and extremes.numpy:
            asked = [extremes.view_lines(child.WHOLE, known.name, *span) for span in spans]
            found = await self.told(known.keeper, asked, lambda frame: extremes.pairs_of(frame, what == GREATEST), FEW)
        else:
            asked = [[child.view_line(known.name, part, 1, begin, end)] for part, begin, end in spans]
            found = await self.told(known.keeper, asked, lambda frame: child.pairs_of(frame, PLACES[what]))
        return [(at + column, number) for (at, _), pairs in zip(parts, found) for column, number in pairs]

    async def folded(self, known, windows, what):
        """The least, greatest or last value of each window, None where it has no value."""
        unit, count = known.unit, windows.count
        if windows.step % unit or windows.length % unit:
            return await self._by_steps(known, windows, what)
        step, length = windows.step // unit, windows.length // unit
        t0 = (windows.end - windows.length) // unit + 1
        if step == length or count == 1:
            self.ways.add("columns")
            found = dict(await self.columns(known, t0, length, count, what))
            return list(map(found.get, range(count)))
        part = math.gcd(step, length)
        parts = ((count - 1) * step + length) // part
        if parts > MOST_PARTS:
            return await self._by_steps(known, windows, what)
        self.ways.add("parts")
        return joined(await self.columns(known, t0, part, parts, what), count, step // part, length // part, what)

    async def _by_steps(self, known, windows, what):
        """A view of one column for each window."""
        self.ways.add("steps")
        ends = [windows.end + at * windows.step for at in range(windows.count)]
        spans = [((end - windows.length) // known.unit + 1, end // known.unit + 1) for end in ends]
        last = known.record.start + (known.slots - 1) * known.record.step
        asked = [at for at, (low, high) in enumerate(spans) if low < high and low <= last and high > known.record.start]
        lines = [[child.view_line(known.name, 1, 1, *spans[at])] for at in asked]
        answers = await self.told(known.keeper, lines, lambda frame: child.pairs_of(frame, PLACES[what]))
        found = {at: number for at, pairs in zip(asked, answers) for _, number in pairs}
        return list(map(found.get, range(windows.count)))

    async def values(self, known, low, high):
        """The values from a time to before another one, in the series' unit: triples of a slot, a time and a number. Ranges without any are
        passed over by views that are coarser."""
        start, step = known.record.start, known.record.step
        first, behind = max(0, -((start - low) // step)), min(known.slots, -((start - high) // step))
        if first >= behind:
            return []
        self.ways.add("values")
        width, begin = COLUMNS, first - first % COLUMNS
        while width * TURN < behind - begin:
            width *= COLUMNS
        spans = [(at, min(at + width, behind)) for at in range(begin, behind, width)]
        while width > COLUMNS:
            width //= COLUMNS
            found = [(at, end, await self.columns(known, start + at * step, width * step, -((at - end) // width), LEAST)) for at, end in spans]
            spans = [(at + column * width, min(at + (column + 1) * width, end)) for at, end, pairs in found for column, _ in pairs]
        lines = [[f"values {known.name} {start + max(at, first) * step} {start + end * step}".encode()] for at, end in spans if end > first]
        found = await self.told(known.keeper, lines, lambda frame: list(child.values_of(frame)))
        return [(slot, start + slot * step, number) for values in found for slot, number in values]

    async def sums(self, known, windows):
        """The sum and the count of the values of each window."""
        unit, start, step = known.unit, known.record.start, known.record.step
        spans = [((end - windows.length) // unit + 1, end // unit + 1) for end in range(
            windows.end, windows.end + windows.count * windows.step, windows.step
        )]
        found = await self.values(known, spans[0][0], spans[-1][1])
        if not found:
            return [(0, 0)] * windows.count
        base, behind = found[0][0], found[-1][0] + 1
        numbers, ones = [0] * (behind - base), [0] * (behind - base)
        for slot, _, number in found:
            numbers[slot - base], ones[slot - base] = number, 1
        totals, counts = list(accumulate(numbers, initial=0)), list(accumulate(ones, initial=0))

        def place(time):
            return min(max(-((start - time) // step) - base, 0), behind - base)

        places = [(place(low), place(high)) for low, high in spans]
        return [(totals[to] - totals[at], counts[to] - counts[at]) for at, to in places]


# Whether a value is of no use any more once a later one of the same window has come.
GIVES_WAY = {LEAST: operator.ge, GREATEST: operator.le, LAST: lambda _before, _later: True}


def joined(columns, count, step, length, what):
    """The least, greatest or last value of windows, each of so many columns, and so many columns behind the one before; None where no column has one.

    The queue has the columns that may yet be those of a window.
    """
    found, queue, behind, gives_way = [], collections.deque(), 0, GIVES_WAY[what]
    for begin in range(0, count * step, step):
        while behind < len(columns) and columns[behind][0] < begin + length:
            column = columns[behind]
            while queue and gives_way(queue[-1][1], column[1]):
                queue.pop()
            queue.append(column)
            behind += 1
        while queue and queue[0][0] < begin:
            queue.popleft()
        found.append(queue[0][1] if queue else None)
    return found
