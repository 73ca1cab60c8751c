"""From points to the slots of series: which series a point is of, which slot its time lies in, and what became of each."""
import asyncio
import collections
import re
import time

from ..decimals import MOST, decimal_text, whole_number
from ..grids import LAST_SLOT
from ..scales import MOST_SCALE
from ..unfit import Unfit
from .labels import text_of
from .stores import FULL, NoRoom

PAUSE = 0.03  # seconds between two looks whether there is room
PART = 2000  # points that are taken in before others have their turn
SHOWN = 5  # bad lines, and reasons, that an answer tells
MOST_WORDS = 400  # signs of one of them

Point = collections.namedtuple("Point", "key measurement time value")  # the time in nanoseconds, the value a text or an int
# For each scale the texts, each with a space behind it, that are so many decimals each, and small enough.
WITH_DECIMALS = [
    re.compile(rf"(?:-?\d{{1,{18 - scale}}}" + (rf"[.]\d{{{scale}}}" if scale else "") + " )++", re.ASCII) for scale in range(MOST_SCALE + 1)
]


class Column(collections.namedtuple("Column", "key measurement times values decimals unit", defaults=[None, 1])):
    """Points of one series in their order. The times count units of so many nanoseconds. The values are texts or ints, as those of a point; or where
    decimals are named, whole numbers of so many."""

    __slots__ = ()

    def plain(self):
        """The values as those of a point."""
        return self.values if self.decimals is None else [decimal_text(number, self.decimals) for number in self.values]

    def numbers(self, scale):
        """The whole numbers that a series of a scale keeps of the values; None where these need a closer look."""
        if self.decimals is None:
            return plain_numbers(self.values, scale)
        if self.decimals <= scale:
            return self.values if self.decimals == scale else plain_numbers(self.values, scale - self.decimals)
        factor = 10 ** (self.decimals - scale)
        return [round(number, scale - self.decimals) // factor for number in self.values]  # half to even

    def slots(self, first, gap):
        """The slots that the times lie in, of which the first one begins at a time in nanoseconds, and each has so many."""
        times, unit = self.times, self.unit
        if first % unit or gap % unit:
            return [(time * unit - first) // gap for time in times]
        first, gap = first // unit, gap // unit
        return [time - first for time in times] if gap == 1 else [(time - first) // gap for time in times]


class Busy(Exception):
    """There is too much at once; it may be sent again."""


class Outcome:
    """What became of the points of a request. Of what is wrong the first few are told, however many there are."""

    def __init__(self):
        self.taken = self.dropped = self.left_out = self.bad = 0
        self.reasons, self.errors = {}, []  # why points were dropped, with how many; and what was no point

    def drop(self, why, count=1):
        self.dropped += count
        if why in self.reasons or len(self.reasons) < SHOWN:
            self.reasons[why] = self.reasons.get(why, 0) + count

    def fail(self, why):
        self.bad += 1
        if len(self.errors) < SHOWN:
            self.errors.append(shortened(why))

    def words(self):
        told = [shortened(why) + (f" ({count})" if count > 1 else "") for why, count in self.reasons.items()]
        return "; ".join(told) + ("; .." if sum(self.reasons.values()) < self.dropped else "")


def shortened(words):
    return words if len(words) <= MOST_WORDS else words[:MOST_WORDS] + ".."


class Intake:
    """Takes in the points of requests."""

    def __init__(self, configuration, stores, writer_of, waiting, counts):
        self.given, self.stores, self.writer_of = configuration.write, stores, writer_of
        self.waiting, self.counts = waiting, counts
        self.works = set()  # what goes on though nobody may wait for it

    def require_room(self):
        if self.waiting() >= self.given.waiting_points:
            raise Busy("too many points wait for the disk")

    async def take(self, parts, outcome):
        """Stores the points of an iterator of parts, each a list of columns, and comes back once all are acknowledged. Behind each part others have
        their turn. What can't be stored is told by the outcome.

        Raises Busy, NoRoom, child.Down, child.Lost and TimeoutError, behind which some of them are stored and some aren't.
        """
        waiting = []
        for columns in parts:
            waiting += await self._part(columns, outcome)
        for batch, counts in waiting:
            refused = await batch.stored(self.given.seconds / 10**9)
            outcome.taken += sum(counts.values())
            for known in counts if refused else ():
                if known in refused:
                    self._settle(refused[known], known, counts[known], outcome)
        self.counts.add("points_total", outcome.taken)
        self.counts.add("dropped_points_total", outcome.dropped)
        self.counts.add("left_out_total", outcome.left_out)

    @staticmethod
    def _settle(refusal, known, count, outcome):
        if refusal.number == FULL:
            raise NoRoom(f"{known.keeper.path} is full")
        outcome.taken -= count
        outcome.drop(f"{text_of(known.key)}: refusal {refusal.number}", count)

    async def _part(self, columns, outcome):
        """Hands some points to the writers, and gives the batches that they are of, each with how many of each series."""
        series = [self.stores.by_key.get(column.key) for column in columns]
        if not all(known and (known.measurement or column.measurement is None) for known, column in zip(series, columns)):
            await self._make_missing(columns, outcome)
            series = [self.stores.by_key.get(column.key) for column in columns]
        batches = {}
        for known, column in zip(series, columns):
            values, count = self._placed(known, column, outcome) if known else ({}, 0)
            if values:
                # Nobody else has a turn until the columns are through, so the batch of a store stays the same.
                if known.keeper not in batches:
                    batches[known.keeper] = self.writer_of(known.keeper).gathering(), {}
                batch, counts = batches[known.keeper]
                batch.add(known, values)
                counts[known] = counts.get(known, 0) + count
        await self._until_room([batch for batch, _ in batches.values()])
        return list(batches.values())

    async def _until_room(self, batches):
        """Others have their turn here; and a request of more points than may wait goes on as the disk takes them."""
        await asyncio.sleep(0)
        while self.waiting() >= 2 * self.given.waiting_points:
            if all(time.monotonic() - batch.writer.progress > self.given.seconds / 10**9 for batch in batches):
                raise Busy("the disk is too slow for so many points")
            await asyncio.sleep(PAUSE)

    async def _make_missing(self, columns, outcome):
        """Makes the series that aren't there; each by the earliest of its points."""
        missing, claims = {}, {}
        for column in columns:
            key, measurement = column.key, column.measurement
            known = self.stores.by_key.get(key)
            if known is None:
                first = min(column.times) * column.unit
                missing[key] = (*missing[key][:2], min(first, missing[key][2])) if key in missing else (key, measurement, first)
            elif measurement is not None and known.measurement is None:
                claims.setdefault(key, measurement)
        if claims:
            await self._whole(self.stores.claim(claims.items()))
        if missing:
            refused = await self._whole(self.stores.make(missing.values()))
            for column in columns if refused else ():
                if column.key in refused:
                    outcome.drop(f"{text_of(column.key)}: {refused[column.key]}", len(column.times))

    async def _whole(self, work):
        """Awaits what isn't to be broken off in the middle, and no longer than a write may take; it goes on all the same."""
        task = asyncio.ensure_future(work)
        self.works.add(task)
        task.add_done_callback(self._done)
        return await asyncio.wait_for(asyncio.shield(task), self.given.seconds / 10**9)

    def _done(self, task):
        self.works.discard(task)
        if not task.cancelled():
            task.exception()

    def _placed(self, known, column, outcome):
        """The slots of a series' points, those that their times lie in, each with its last value; and how many points these are."""
        owner, first, gap, scale = known.measurement, known.first, known.gap, known.record.scale
        measurement = column.measurement
        if measurement != owner and owner is not None and measurement is not None:
            outcome.drop(f"{text_of(known.key)} is of the measurement {owner!r}, not of {measurement!r}", len(column.times))
            return {}, 0
        slots = column.slots(first, gap)
        numbers = column.numbers(scale)
        if numbers and min(slots) >= 0 and max(slots) <= LAST_SLOT:
            return dict(zip(slots, numbers)), len(slots)
        values, count = {}, 0
        for slot, value in zip(slots, column.plain()):
            if not 0 <= slot <= LAST_SLOT:
                outcome.drop(f"{text_of(known.key)}: a time lies " + ("before the series' start" if slot < 0 else "too far behind its start"))
                continue
            try:
                values[slot] = number_of(value, scale)
                count += 1
            except Unfit as why:
                outcome.drop(f"{text_of(known.key)}: {why}")
        return values, count


def parts_of(points):
    """The parts of an iterator of points. It gives None for what is no point, so that others have their turn however many of these there are."""
    part = []
    for at, point in enumerate(points, 1):
        if point is not None:
            part.append(point)
        if at % PART == 0:
            yield columns_of(part)
            part = []
    yield columns_of(part)


def columns_of(points):
    """The columns of points. Most come with the very same key, so that few of them are compared."""
    columns, same = {}, {}
    for point in points:
        column = same.get((id(point.key), point.measurement))
        if column is None:
            column = columns.setdefault((point.key, point.measurement), Column(point.key, point.measurement, [], []))
            same[id(point.key), point.measurement] = column
        column.times.append(point.time)
        column.values.append(point.value)
    return list(columns.values())


def plain_numbers(values, scale):
    """The whole numbers that a series keeps of values, where these are all texts of so many decimals, or all whole numbers; else None."""
    kinds = set(map(type, values))
    if kinds == {str}:
        text = " ".join(values) + " "
        return list(map(int, text.replace(".", "").split())) if WITH_DECIMALS[scale].fullmatch(text) else None
    factor = 10**scale
    if kinds == {int} and -MOST <= min(values) * factor and max(values) * factor <= MOST:
        return [value * factor for value in values]
    return None


def number_of(value, scale):
    """The whole number that a series keeps of a value, a text or an int: times 10^scale, rounded half to even. Raises Unfit."""
    if isinstance(value, int):
        number = value * 10**scale
        if not -MOST <= number <= MOST:
            raise Unfit(f"{value} is too large for the scale {scale}")
        return number
    whole, _, rest = value.partition(".")
    if len(whole) < 9 and "_" not in value:
        try:
            number = int(whole + rest[:scale].ljust(scale, "0"))  # so few digits can't be too many
            return rounded(number, rest[scale:], value[0] == "-")
        except ValueError:
            pass  # an exponent, or no number
    return whole_number(value, scale)[0]


def rounded(number, rest, is_negative):
    """A number behind which further decimals stand, rounded half to even. Raises ValueError where they are no decimals."""
    if not rest:
        return number
    if not (rest.isascii() and rest.isdecimal()):
        raise ValueError
    half = "5".ljust(len(rest), "0")
    is_up = rest > half or rest == half and number % 2 == 1
    return number - is_up if is_negative else number + is_up
