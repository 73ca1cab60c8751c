"""Which series changed, for the pages that wait for it."""
import asyncio
import time

from ..page_rules import Latest


class News(Latest):
    def __init__(self):
        super().__init__()
        self.coming, self.times = asyncio.Event(), {}

    def tell(self, series):
        """Notes that some series changed: what has their names."""
        if series:
            self.note(series)
            self.times.update(dict.fromkeys((one.name for one in series), time.monotonic()))
            self.wake()

    def wake(self):
        """Has all who wait look, as where something else changed that they tell."""
        self.coming.set()
        self.coming = asyncio.Event()

    async def since(self, seen, patience):
        """The number of changes, and the series that changed behind the first `seen`; where there is none it waits for one so many seconds, or until
        it is woken."""
        if self.count <= seen:
            try:
                async with asyncio.timeout(patience):
                    await self.coming.wait()
            except TimeoutError:
                pass
        return self.count, self.behind(seen)

    def age(self, series):
        """The seconds since the one of some series changed whose last change is the oldest."""
        return time.monotonic() - min(self.times[one.name] for one in series)
