"""The queue of a store's edits: points gather while those before are stored, and are answered once the frames of all their lines came."""
import asyncio
import time

from ..set_lines import lines_by_slots
from . import child
from .log import tell
from .stores import FULL

TURN = 60  # lines of a turn: of one value they fill whole commits, each of which has room for 60, 30, 20, 15 or 12 series, as long as these are
MOST_TRIES = 8  # of a turn whose run ended
PAUSE = 0.05
LOOK = 0.5  # seconds between two looks whether a store goes on


class Batch:
    """Points of one store that are stored together: of each series its slots, each with what it was given last."""

    def __init__(self, writer):
        self.writer, self.values, self.count = writer, {}, 0
        self.done = asyncio.get_running_loop().create_future()
        self.done.add_done_callback(lambda done: done.cancelled() or done.exception())

    def add(self, known, slots):
        held = self.values.setdefault(known, slots)
        if held is not slots:
            held.update(slots)
        self.count += len(slots)

    async def stored(self, seconds):
        """Waits until the batch is stored, as long as its store takes no more than so many seconds for a turn, and gives what was refused."""
        while not self.done.done():
            await asyncio.wait({self.done}, timeout=LOOK)
            if not self.done.done() and time.monotonic() - self.writer.progress > seconds:
                raise TimeoutError
        return self.done.result()

    def lines(self):
        """Pairs of a series and a line that stores up to 256 slots of it which follow each other. Series stand as they were made: so edits that
        share a commit change fewer pages of the catalog, and more of them have room in one."""
        for known, values in sorted(self.values.items(), key=lambda pair: pair[0].place):
            for line in lines_by_slots(known.name, known.record.start, known.record.step, values):
                yield known, line


class Writer:
    """Stores the batches of one store, one after the other."""

    def __init__(self, keeper, counts, stores, on_stored):
        self.keeper, self.counts, self.stores, self.on_stored = keeper, counts, stores, on_stored
        self.batch, self.working, self.task = None, None, None
        self.progress = time.monotonic()  # when the last turn was answered, or began where none waited

    @property
    def waiting(self):
        """How many points aren't answered."""
        return sum(batch.count for batch in (self.batch, self.working) if batch)

    def gathering(self):
        """The batch that takes in points until the one before is stored."""
        if self.batch is None:
            self.batch = Batch(self)
        if self.task is None or self.task.done():
            self.progress = time.monotonic()
            self.task = asyncio.create_task(self._work())
        return self.batch

    async def _work(self):
        while self.batch:
            self.working, self.batch = self.batch, None
            try:
                refused = await self._store(self.working)
                await self.on_stored({known: values for known, values in self.working.values.items() if known not in refused})
                self.working.done.set_result(refused)
            except Exception as why:  # whoever waits is told, and the next batch is begun all the same
                self.working.done.set_exception(why)
            self.working = None

    async def _store(self, batch):
        """Stores a batch; gives the refusal of each series of which something was refused."""
        refused, turn = {}, []
        for pair in batch.lines():
            turn.append(pair)
            if len(turn) == TURN:
                await self._turn(turn, refused)
                turn = []
        if turn:
            await self._turn(turn, refused)
        return refused

    async def _turn(self, pairs, refused):
        begun = time.monotonic()
        answers = await self._ask([line for _, line in pairs])
        self.progress = time.monotonic()
        self.counts.add("edits_total", len(pairs))
        self.counts.add("turns_total")
        self.counts.add("turn_seconds_total", time.monotonic() - begun)
        changed = {}
        for answer, (known, _) in zip(answers, pairs):
            slots = child.slots_of(answer)
            if slots is None:
                refused[known] = child.done_or_refused(answer)
                if refused[known].number == FULL:
                    self.stores.full.add(self.keeper)
            else:
                known.slots = slots
                changed[known] = None
        self.stores.tell(changed)

    async def _ask(self, lines):
        """A `set` that is sent again stores what it stored before, so a turn that got lost is asked anew of the next run."""
        for at in range(MOST_TRIES):
            try:
                return await self.keeper.ask(lines)
            except child.Lost as why:
                tell("a turn of edits is sent again", "warning", path=self.keeper.path, lines=len(lines), why=str(why))
                await asyncio.sleep(PAUSE * at)
        raise child.Down(f"{self.keeper.path}: its runs end before they answer")
