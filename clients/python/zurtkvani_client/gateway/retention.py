"""What rules keep for a time only is dropped when that has passed: by `sweep` lines to a store's run, at quiet moments.

A line makes at most 64 clears, so that no request waits for long behind one; it is sent again as long as it leaves some.
"""
import asyncio
import time

from .. import frames
from . import child
from .log import tell
from .rules import rule_for

PAUSE = 1.0  # seconds between two looks whether it is quiet


class Retention:
    """The sweeps of all stores."""

    def __init__(self, gateway):
        self.gateway, self.given = gateway, gateway.given.retain
        self.is_needed = any(rule.keep for rule in gateway.given.series)

    async def work(self):
        """Sweeps again and again."""
        while self.is_needed:
            ends = time.monotonic() + self.given.every / 10**9
            for keeper in list(self.gateway.stores.keepers):
                try:
                    await self.sweep(keeper, ends)
                except (child.Lost, child.Down, child.Refused, TimeoutError) as why:
                    tell("a sweep failed", "warning", path=keeper.path, why=str(why))
            await asyncio.sleep(max(PAUSE, ends - time.monotonic()))

    async def sweep(self, keeper, ends):
        """Drops from a store all that its rules don't keep. No quiet moment is waited for when a time has passed."""
        clears, seconds, changed = 0, 0.0, []
        for known, limit in self.limits(keeper, time.time_ns()):
            swept = None
            while swept is None or swept.more:
                await self.quiet(keeper, ends)
                begun = time.monotonic()
                (frame,) = await keeper.ask([f"sweep before {known.name} {limit}".encode()])
                seconds += time.monotonic() - begun
                swept = child.report_of(frames.SWEPT, frame)
                clears += swept.clears
                if swept.clears:
                    changed.append(known)
                    self.gateway.stores.full.discard(keeper)
                    self.gateway.stores.tell([known])
        if changed:
            tell("old values are dropped", path=keeper.path, series=len(set(changed)), clears=clears, seconds=round(seconds, 3))

    def limits(self, keeper, now):
        """The series of a store that are kept for a time, each with the time before which nothing is kept, in its own unit."""
        for known in [known for known in self.gateway.stores.by_key.values() if known.keeper is keeper]:
            keep = rule_for(self.gateway.given.series, known.key).keep
            limit = None if keep is None else (now - keep) // known.unit
            if limit is not None and limit > known.record.start and known.slots:
                yield known, limit

    async def quiet(self, keeper, ends):
        """Waits for a quiet moment of a store, up to a time."""
        writer = self.gateway.writer_of(keeper)
        while time.monotonic() < ends and (writer.waiting or time.monotonic() - writer.progress < self.given.quiet / 10**9):
            await asyncio.sleep(min(PAUSE, self.given.quiet / 10**9))
