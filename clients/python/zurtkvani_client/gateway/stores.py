"""The stores of a gateway: which series there are, in which store each is, and how new series and new stores are made."""
import asyncio
import fcntl
import itertools
import os
import time

from .. import store_file
from ..store import Series
from ..timestamps import UNITS, unit_of
from ..unfit import Unfit
from ..words import numbers_of
from . import child
from .labels import NAME, text_of
from .log import tell
from .names import Names
from .replacing import sync_folder
from .rules import grid_for, rule_for

MOST_SERIES = 512  # of a store
MOST_LOST = 8  # runs that end while they make series, until those who asked for them are told
START_SECONDS = 30  # until a run that is started again stands
MOST_LABELS = 4000  # bytes of a series' labels
FULL, EXISTS, TOO_MANY = numbers_of("Full", "SeriesExists", "TooManySeries")


class Known:
    """A series: its labels outside, its record in its store, and the same grid in nanoseconds."""

    def __init__(self, key, keeper, record):
        self.key, self.keeper, self.record, self.name = key, keeper, record, record.name
        self.place, self.measurement = 0, None  # which one of its store's series it is, as they were made; and the measurement that it is of
        self.unit = UNITS[unit_of(record.start)]
        self.first, self.gap, self.slots = record.start * self.unit, record.step * self.unit, record.slots

    @property
    def labels(self):
        return dict(self.key)

    def told(self):
        """What its store has of it now."""
        return self.record._replace(slots=self.slots)


def require_short(key):
    if sum(len(name.encode()) + len(value.encode()) for name, value in key) > MOST_LABELS:
        raise Unfit(f"the labels have more than {MOST_LABELS:,} bytes")


class NoRoom(Exception):
    """No store has room, and no further one may be made."""


class Stores:
    """All stores, and all series by their labels."""

    def __init__(self, configuration, counts, news):
        self.given, self.rules, self.counts, self.news = configuration.stores, configuration.series, counts, news
        self.names = None
        self.keepers, self.full = [], set()
        self.by_key, self.by_name, self.inner, self.places = {}, {}, {}, itertools.count()
        self.making, self.lock = asyncio.Lock(), None
        self.on_push = None  # is handed a keeper, and a frame that a session of its run is pushed

    async def start(self):
        """Makes the folder and the first store where they aren't there, and starts the runs. Raises names.Damaged and OSError."""
        os.makedirs(self.given.folder, exist_ok=True)
        self.lock = alone_in(self.given.folder)
        self.names = Names(os.path.join(self.given.folder, "names.json"))
        found = list(self.given.files)
        found += [name for at in range(2, self.given.most + 1) if os.path.exists(self._path(name := self._further(at))) and name not in found]
        for name in found:
            if not os.path.exists(self._path(name)):
                await self._make_file(name)
        await asyncio.gather(*(self._open(name) for name in found))

    async def stop(self):
        await asyncio.gather(*(keeper.stop() for keeper in self.keepers))

    def _path(self, name):
        return os.path.join(self.given.folder, name)

    def _further(self, number):
        """The name of a store file that the gateway makes itself."""
        stem, ending = os.path.splitext(self.given.files[0])
        return f"{stem}-{number}{ending}"

    async def _make_file(self, name):
        path = self._path(name)
        await asyncio.to_thread(store_file.make_store, path, self.given.size, self.given.program)
        await asyncio.to_thread(sync_folder, self.given.folder)
        tell("a store is made", path=path, bytes=self.given.size)

    async def _open(self, name):
        keeper = child.Keeper(self.given.program, self._path(name))
        keeper.on_listed, keeper.on_push = self._listed, lambda frame: self.on_push(keeper, frame)
        await keeper.start()
        self.keepers.append(keeper)

    def _listed(self, keeper):
        """Takes in what a run's store has, as of its start."""
        for record in keeper.series:
            known = self.inner.get(record.name)
            if known is None:
                self._take(Known(self.names.key_of_inner(record.name), keeper, record))
            elif known.keeper is keeper:
                known.slots = record.slots
            else:
                tell("a series stands in two stores, and this one is passed over", "warning", path=keeper.path, series=record.name)

        # What was dropped or stored without an answer while there was no run is seen from now on.
        self.tell([known for known in self.inner.values() if known.keeper is keeper])

    def tell(self, changed):
        """Tells that some series changed."""
        self.news.tell(changed)

    def _take(self, known):
        if known.key in self.by_key:
            return
        known.place, known.measurement = next(self.places), self.names.measurements.get(known.key)
        self.by_key[known.key] = self.inner[known.name] = known
        self.by_name.setdefault(known.labels.get(NAME, ""), []).append(known)

    async def make(self, wanted):
        """Makes series that aren't there: triples of a key, a measurement or None, and the time of a first point. Gives for each key that has
        none why, in words. Raises NoRoom, child.Down, child.Lost and OSError."""
        async with self.making:
            refused, grids = {}, {}
            for key, _, time in wanted:
                try:
                    require_short(key)
                    grids[key] = grid_for(rule_for(self.rules, key), time)
                except Unfit as why:
                    refused[key] = str(why)
            pairs = [(key, measurement) for key, measurement, _ in wanted if key in grids]
            await asyncio.to_thread(self.names.add, pairs, self.inner.__contains__)
            await self._create(grids)
            return refused

    async def claim(self, pairs):
        """Notes for series that are there the measurements that they are of."""
        async with self.making:
            await asyncio.to_thread(self.names.add, pairs, self.inner.__contains__)
            for key, _ in pairs:
                self.by_key[key].measurement = self.names.measurements.get(key)

    async def _create(self, grids):
        lost = 0
        while grids := self._missing(grids):
            # A run that is started again may have made some of them, which it lists then: so none is made twice.
            await asyncio.gather(*(asyncio.wait_for(keeper.is_up.wait(), START_SECONDS) for keeper in self.keepers))
            if not (grids := self._missing(grids)):
                return
            keepers = await self._keepers_with_room()
            left = iter(grids.items())
            parts = [(keeper, dict(itertools.islice(left, share))) for keeper, share in self._shares(keepers, len(grids)).items()]
            works = [self._create_in(keeper, part) for keeper, part in parts if part]
            for why in await asyncio.gather(*works, return_exceptions=True):
                lost += isinstance(why, child.Lost)
                if why and (not isinstance(why, child.Lost) or lost > MOST_LOST):
                    raise why

    def _missing(self, grids):
        return {key: grid for key, grid in grids.items() if key not in self.by_key}

    def _shares(self, keepers, wanted):
        """How many of so many series each store gets: each goes where the fewest are. So they are spread over all stores, which are written side by
        side in less time than one, also where a run is lost."""
        counts, shares = {keeper: self.count(keeper) for keeper in keepers}, dict.fromkeys(keepers, 0)
        for _ in range(min(wanted, sum(MOST_SERIES - count for count in counts.values()))):
            fewest = min(counts, key=counts.get)
            counts[fewest] += 1
            shares[fewest] += 1
        return shares

    def count(self, keeper):
        return sum(known.keeper is keeper for known in self.by_key.values())

    async def _keepers_with_room(self):
        """The stores that have room for a series, those with the fewest first."""
        if unknown := [keeper.path for keeper in self.keepers if keeper.series is None]:
            raise NoRoom(f"it isn't known which series {unknown[0]} has, so no series is made")
        counts = {keeper: self.count(keeper) for keeper in self.keepers if not keeper.down and keeper not in self.full}
        if found := sorted((keeper for keeper, count in counts.items() if count < MOST_SERIES), key=counts.get):
            return found
        if down := [keeper.path for keeper in self.keepers if keeper.down]:
            raise NoRoom(f"{down[0]} is given up, and no further store is made beside it")
        if len(self.keepers) >= self.given.most:
            raise NoRoom(f"{len(self.keepers)} stores are full, and the configuration allows no further one")
        name = next(name for at in range(2, 10**4) if not os.path.exists(self._path(name := self._further(at))))
        await self._make_file(name)
        await self._open(name)
        return self.keepers[-1:]

    async def _create_in(self, keeper, grids):
        """Makes series in one store. One that was made by a turn whose answer got lost is there already, and is as good."""
        names = {key: self.names.inner_of(key) for key in grids}
        answers = await keeper.ask([f"create {names[key]} {grid.start} {grid.step} {grid.scale}".encode() for key, grid in grids.items()])
        for (key, grid), frame in zip(grids.items(), answers):
            refusal = child.refusal_of(frame)
            record = Series(names[key], *grid, 0)
            if refusal and refusal.number in (FULL, TOO_MANY):
                self.full.add(keeper)
                continue
            if refusal and refusal.number == EXISTS:
                # Its grid is what the store has, and not what is asked for now.
                record = next((record for record in keeper.series if record.name == names[key]), None)
            if record is None or refusal and refusal.number != EXISTS:
                raise NoRoom(f"{text_of(key)} can't be made: {frame.hex()}")
            known = Known(key, keeper, record)
            self._take(known)
            self.tell([known])
            self.counts.add("made_series_total")
            tell("a series is made", path=keeper.path, name=names[key], series=text_of(key), step=record.step, scale=record.scale)


def alone_in(folder, seconds=2):
    """A lock that two gateways over one folder can't have; it goes with the process that has it, and with what that was starting when it was
    killed. So it is tried for so long."""
    file = open(os.path.join(folder, "gateway.lock"), "w")
    ends = time.monotonic() + seconds
    while True:
        try:
            fcntl.flock(file, fcntl.LOCK_EX | fcntl.LOCK_NB)
            return file
        except BlockingIOError:
            if time.monotonic() > ends:
                file.close()
                raise OSError(f"another gateway works on {folder}") from None
            time.sleep(0.05)
