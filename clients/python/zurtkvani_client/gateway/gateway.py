"""A gateway: its stores, the queues in front of them, and what its requests share."""
import asyncio
import os

from .alarms import Alarms
from .bodies import Budget
from .guard import Guard
from .intake import Intake
from .line_protocol import Reader
from .metrics import Counts
from .mqtt import Broker
from .news import News
from .retention import Retention
from .stores import Stores
from .viewers import Viewers
from .writing import Writer

try:
    import snappy
except ImportError:  # remote write alone needs it, and says so
    snappy = None


class Gateway:
    """All of it but the HTTP server itself."""

    def __init__(self, given):
        self.given, self.snappy = given, snappy
        self.counts, self.budget, self.guard = Counts(), Budget(given.write.waiting_bytes), Guard(given)
        self.news, self.is_ending = News(), asyncio.Event()
        self.stores, self.writers = Stores(given, self.counts, self.news), {}
        self.intake = Intake(given, self.stores, self.writer_of, self.waiting, self.counts)
        self.broker = Broker(self)
        self.alarms = Alarms(given, self.stores, self.counts, self.broker.publish)
        self.retention, self.backing_up, self.viewers = Retention(self), asyncio.Lock(), Viewers(self)
        self.stores.on_push = self.viewers.pushed
        self.reading = asyncio.Semaphore(given.read.at_once)
        self.sweeping = None
        self.line_reader = Reader(given.write.database_label, given.write.separator)

    def writer_of(self, keeper):
        if keeper not in self.writers:
            self.writers[keeper] = Writer(keeper, self.counts, self.stores, self.alarms.saw)
        return self.writers[keeper]

    def waiting(self):
        """How many points aren't answered."""
        return sum(writer.waiting for writer in self.writers.values())

    @staticmethod
    def store_name(keeper):
        return os.path.basename(keeper.path)

    async def start(self):
        await self.stores.start()
        await self.alarms.start()
        self.broker.start()
        self.viewers.start()
        self.sweeping = asyncio.create_task(self.retention.work())

    async def stop(self):
        """Stores what was taken in, and ends the runs."""
        await self.broker.stop()
        await self.viewers.stop()
        if self.sweeping:
            self.sweeping.cancel()
            await asyncio.wait({self.sweeping})
        tasks = [writer.task for writer in self.writers.values() if writer.task]
        if tasks:
            await asyncio.wait(tasks, timeout=self.given.write.seconds / 10**9)
        await self.alarms.stop()
        await self.stores.stop()

    def faults(self):
        """What isn't as it should be, in words, by the names of the stores."""
        down = {self.store_name(keeper): keeper.down for keeper in self.stores.keepers if keeper.down}
        waits = {self.store_name(keeper): "its run is started again" for keeper in self.stores.keepers if not keeper.down and not keeper.run}
        full = {self.store_name(keeper): "it is full" for keeper in self.stores.full}
        away = {"mqtt": self.broker.away} if self.given.mqtt.host and not self.broker.connection else {}
        return {**full, **waits, **down, **away}
