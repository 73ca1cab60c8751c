"""Alarms: rules over series, of which each series' beginning and end is told once.

Compared are values that a store acknowledged, as whole numbers of the series' scale with exact decimals, slot by slot in the order of time. What
comes behind a later slot of its series, or is older than the configuration says, changes nothing.
"""
import asyncio
import bisect
import collections
import json
import os
import time

from aiohttp import web

from ..decimals import EXACT, decimal_text
from ..timestamps import date_text
from . import child
from .labels import key_of, text_of
from .log import tell
from .reading import Reads, TooMuch
from .replacing import replace
from .rules import fits
from .telling import Tellers

VERSION = 1
BEGIN, END = "begin", "end"
Change = collections.namedtuple("Change", "watch state slot number")  # the number is None for what is stale


class Window:
    """How far the values of a series lie apart within so many slots. The latest value may be replaced by another one of its slot."""

    def __init__(self, span):
        self.span, self.lows, self.highs, self.latest = span, collections.deque(), collections.deque(), None

    def spread(self, slot, number):
        """The greatest less the least value, of this one and those of the window before it."""
        if self.latest is not None and self.latest[0] < slot:
            self._keep(*self.latest)
        self.latest = slot, number
        for kept in (self.lows, self.highs):
            while kept and kept[0][0] < slot - self.span:
                kept.popleft()
        numbers = [number, *(kept[0][1] for kept in (self.lows, self.highs) if kept)]
        return max(numbers) - min(numbers)

    def _keep(self, slot, number):
        while self.lows and self.lows[-1][1] >= number:
            self.lows.pop()
        while self.highs and self.highs[-1][1] <= number:
            self.highs.pop()
        self.lows.append((slot, number))
        self.highs.append((slot, number))


class Watch:
    """One rule over one series."""

    def __init__(self, rule, known, kept):
        self.rule, self.known, self.kind = rule, known, rule.kind
        self.begun = self.slot = self.number = None  # when the alarm began, in nanoseconds; its last change, and the value then
        if kept:
            self.begun, self.slot, self.number = kept
        self.latest, self.since = self.slot, None  # the last slot that was looked at; the first one of those beyond the limit
        self.window = Window(rule.within // known.gap) if self.kind == "rate" else None
        self.is_seeded = self.window is None
        if self.kind != "stale":
            # A whole number is above a limit where it is above the greatest whole number that isn't.
            sign = -1 if self.kind == "under" else 1
            ends = getattr(rule, self.kind) if rule.ends is None else rule.ends
            self.limit, self.ends = (self._floor(sign * one) for one in (getattr(rule, self.kind), ends))

    def _floor(self, limit):
        return int(limit.scaleb(self.known.record.scale, EXACT).to_integral_value("ROUND_FLOOR", EXACT))

    def looked_at(self, slots):
        """Those of some rising slots that may change something."""
        return slots if self.latest is None else slots[bisect.bisect_left(slots, self.latest) :]

    def look(self, slots, values):
        """Looks at the values of rising slots, and gives what changes."""
        for slot in self.looked_at(slots):
            self.latest, number = slot, values[slot]
            measure = self.window.spread(slot, number) if self.window else number
            state = self._state(slot, -measure if self.kind == "under" else measure)
            if state:
                yield self._changed(state, slot, measure)

    def _state(self, slot, measure):
        if self.begun is not None:
            return END if measure <= self.ends else None
        if measure <= self.limit:
            self.since = None
            return None
        self.since = slot if self.since is None or slot < self.since else self.since
        return BEGIN if (slot - self.since) * self.known.gap >= self.rule.lasts else None

    def look_at_age(self, now):
        """What changes by the time that passes."""
        slot = self.known.slots - 1
        is_stale = now - self.time_of(slot) > self.rule.stale
        if slot >= 0 and is_stale != (self.begun is not None):
            yield self._changed(BEGIN if is_stale else END, slot, None)

    def _changed(self, state, slot, number):
        self.begun = self.time_of(slot) if state == BEGIN else None
        self.since, self.slot, self.number = None, slot, number
        return Change(self, state, slot, number)

    def time_of(self, slot):
        return self.known.first + slot * self.known.gap

    def kept(self):
        return {"alarm": self.rule.name, "labels": self.known.labels, "begun": self.begun, "slot": self.slot, "number": self.number}

    def told(self):
        """What is told of an alarm, but for its state and when that changed."""
        value = None if self.number is None else decimal_text(self.number, self.known.record.scale)
        return {
            "alarm": self.rule.name, "series": text_of(self.known.key), "labels": self.known.labels, "kind": self.kind,
            "limit": self.rule.shown, "value": value,
        }


class Alarms:
    """All rules over all series, and the file that keeps what began and what isn't told."""

    def __init__(self, configuration, stores, counts, publish):
        self.given, self.rules, self.read = configuration.alarms, configuration.alarm, configuration.read
        self.stores, self.counts = stores, counts
        self.path = os.path.join(configuration.stores.folder, "alarms.json")
        self.tellers = Tellers(configuration, counts, publish, self._keep)
        self.watches, self.kept = {}, {}
        self.writing, self.is_kept, self.task = asyncio.Lock(), True, None
        self.changes = 0  # how often one began or ended

    async def start(self):
        """Takes in what was kept, and begins to look at what is stale and to tell what isn't told."""
        if self.rules:
            self._take(self._read())
            for known in self.stores.by_key.values():
                self.of(known)
            self.tellers.wake()
            self.task = asyncio.create_task(self._work())

    async def stop(self):
        """Ends the looking and the telling. What was told is kept as told."""
        if self.task:
            self.task.cancel()
            await asyncio.wait({self.task})
            await self.tellers.stop()
            await self._keep()

    def _read(self):
        """What the file has. One that is damaged is told and set aside, since no value is in it."""
        try:
            with open(self.path, encoding="utf-8") as file:
                table = json.load(file)
            if table["version"] != VERSION:
                raise ValueError(f"its version is {table['version']}, and this is {VERSION}")
            watches = {(one["alarm"], key_of(one["labels"])): (one["begun"], one["slot"], one["number"]) for one in table["watches"]}
            return watches, [(one["alarm"], one["way"], dict(one["event"])) for one in table["untold"]]
        except FileNotFoundError:
            return {}, []
        except (ValueError, KeyError, TypeError, AttributeError) as why:
            os.rename(self.path, self.path + ".damaged")
            tell("alarms begin anew: their file is damaged, and set aside", "error", path=self.path + ".damaged", why=repr(why))
            return {}, []

    def _take(self, found):
        names = {rule.name for rule in self.rules}
        self.kept = {pair: kept for pair, kept in found[0].items() if pair[0] in names}
        for name, way, event in found[1]:
            self.tellers.add(name, event, way)

    def of(self, known):
        """The watches over a series."""
        if known not in self.watches:
            rules = [rule for rule in self.rules if fits(rule.match, known.key)]
            self.watches[known] = [Watch(rule, known, self.kept.pop((rule.name, known.key), None)) for rule in rules]
        return self.watches[known]

    async def saw(self, stored):
        """Looks at what was acknowledged: of each series its slots, each with its value. Behind it what began or ended is kept."""
        oldest, changes = time.time_ns() - self.given.oldest, []
        for known, values in stored.items() if self.rules else ():
            watches = [watch for watch in self.of(known) if watch.kind != "stale"]
            slots = sorted(slot for slot in values if watches and known.first + slot * known.gap >= oldest)
            for watch in watches:
                await self._seed(watch, watch.looked_at(slots))
                changes += watch.look(slots, values)
        await self._note(changes)

    async def _seed(self, watch, slots):
        """Fills a window, before the first of its slots, with what the store has, as of before the gateway was started."""
        known = watch.known
        if watch.is_seeded or not slots:
            return
        watch.is_seeded, slot = True, slots[0]
        low = max(0, slot - watch.window.span)
        reads = Reads(self.counts, self.read.most_values, self.read.seconds / 10**9)
        try:
            found = await reads.values(known, *(known.record.start + at * known.record.step for at in (low, slot)))
        except (TooMuch, child.Down, child.Lost, child.Refused, TimeoutError) as why:
            tell("a rate begins without the values before", "warning", alarm=watch.rule.name, series=text_of(known.key), why=str(why))
            return
        for before, _, number in found:
            watch.window.spread(before, number)

    async def _work(self):
        while True:
            now = time.time_ns()
            watches = [watch for known in list(self.stores.by_key.values()) for watch in self.of(known) if watch.kind == "stale"]
            await self._note([change for watch in watches for change in watch.look_at_age(now)])
            if not self.is_kept:
                await self._keep()
            await asyncio.sleep(self.given.every / 10**9)

    async def _note(self, changes):
        """Has changes told, once they are kept."""
        if not changes:
            return
        self.changes += len(changes)
        self.stores.news.wake()
        for watch, state, slot, number in changes:
            at = date_text(watch.time_of(slot))
            event = {**watch.told(), "state": state, "time": at, "value": None if number is None else decimal_text(number, watch.known.record.scale)}
            tell("an alarm", "warning", **event)
            self.counts.add("alarms_total", alarm=watch.rule.name, state=state)
            self.tellers.add(watch.rule.name, event)
        await self._keep()
        self.tellers.wake()

    async def _keep(self):
        """Writes the file, to its end also where who waits for that is broken off, since two at once would spoil it."""
        await asyncio.shield(asyncio.create_task(self._write()))

    async def _write(self):
        """Writes the file. Where that fails it is tried again, and nothing waits for that."""
        async with self.writing:
            watches = [watch.kept() for watches in self.watches.values() for watch in watches if watch.slot is not None]
            for (name, key), (begun, slot, number) in self.kept.items():
                watches.append({"alarm": name, "labels": dict(key), "begun": begun, "slot": slot, "number": number})
            table = {"version": VERSION, "watches": watches, "untold": self.tellers.untold()}
            try:
                await asyncio.to_thread(replace, self.path, json.dumps(table, ensure_ascii=False, separators=(",", ":")))
                self.is_kept = True
            except OSError as why:
                self.is_kept = False
                tell("the file of alarms can't be written", "error", path=self.path, why=str(why))

    def active(self):
        """The alarms that have begun and not ended, the earliest first."""
        found = [watch for watches in self.watches.values() for watch in watches if watch.begun is not None]
        return sorted(found, key=lambda watch: (watch.begun, watch.rule.name, watch.known.key))

    def listed(self):
        """What is told of these."""
        return [{**watch.told(), "name": watch.known.name, "begun": date_text(watch.begun)} for watch in self.active()]


async def listed(gateway, _request):
    """GET /alarms: those that have begun and not ended, and how much isn't told yet."""
    alarms = gateway.alarms
    return web.Response(text=json.dumps({"alarms": alarms.listed(), "untold": alarms.tellers.waiting()}) + "\n", content_type="application/json")
