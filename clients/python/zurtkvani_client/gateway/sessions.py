"""The sessions of a run that viewers have: one each as long as they last, and one more by which all others are served in turn.

A run has sixteen sessions. The gateway reads by one; one is opened for a view that is sent whole and closed behind it, so it serves one viewer after
the other; and each of the rest is a viewer's own, who is sent of its next view just what it lacks. What comes of the one and of the other are the
Opened, View, Rows and Closed frames of one session, as they are: so a viewer's client draws exactly what the store has, and may be sent some views
the one way and some the other.
"""
import asyncio
import time

from ..page_rules import OPENED, UNKNOWN_SESSION, gives_way, refusal_in
from . import child

MOST_OWN = 14
FIRST_OWN = 3
MOST_LOST = 8  # runs that end before they answer
PAUSE = 0.1


class Own:
    """A session of one viewer, of the run that opened it, None where none did."""

    def __init__(self, viewer, number):
        self.viewer, self.number, self.run, self.asked = viewer, number, None, time.monotonic()

    @property
    def streams(self):
        return self.viewer.streams

    def idle(self):
        return time.monotonic() - self.asked


class Sessions:
    """The sessions of the runs over one store."""

    def __init__(self, keeper, seconds):
        self.keeper, self.seconds = keeper, seconds
        self.own, self.closing = {}, {}  # by viewers; and by numbers the runs of those that are nobody's any more
        self.tasks = set()

    async def view(self, viewer, words):
        """The frames of a view for a viewer who has a session of its own, or gets one: the view's, behind that of the session where this was opened
        for it. None where there is no session to be had."""
        for at in range(MOST_LOST):
            own = self.own.get(viewer) or self.taken(viewer)
            if own is None:
                return None
            own.asked, run = time.monotonic(), await self.standing()
            is_open, gone = own.run is run, self.to_close(run)
            opening = [] if is_open else [b"close %d" % own.number, b"open %d %d" % (own.number, viewer.cache)]
            frames = await self.asked([*(b"close %d" % number for number in gone), *opening, b"view %d %b" % (own.number, words)], at)
            if frames is None:
                continue
            self.are_closed(gone)
            if is_open and refusal_in(frames[-1]) == UNKNOWN_SESSION:
                own.run = None
                continue
            if not is_open and frames[-2][4] != OPENED:
                self.own.pop(viewer, None)
                return None
            # Where a run that began since then has answered, the next view finds that it isn't this one, and opens the session again.
            own.run = run
            if self.own.get(viewer) is not own:
                self.closing[own.number] = run
            return frames[-1:] if is_open else frames[-2:]
        raise child.Down("the store's runs end before they answer")

    async def follow(self, viewer, word):
        """Has the viewer's own session follow its last view, or not any more, and gives the frame that tells it; None where it has none now."""
        own, run = self.own.get(viewer), self.keeper.run
        if own is None or run is None or own.run is not run:
            return None
        own.asked = time.monotonic()
        frames = await self.asked([b"%b %d" % (word, own.number)], 0)
        return None if frames is None or refusal_in(frames[0]) == UNKNOWN_SESSION else frames[0]

    def pushed(self, frame):
        """Hands a frame that a session is pushed to its viewer."""
        number = int.from_bytes(frame[5:9], "big")
        own = next((own for own in self.own.values() if own.number == number), None)
        if own:
            own.asked = time.monotonic()
            own.viewer.push(frame)

    async def whole(self, cache, word, words):
        """The frames of a view or a sum for whoever has a client that keeps so many coefficients: those of a session that is opened for it and closed behind
        it. A refusal stands alone."""
        for at in range(MOST_LOST):
            frames = await self.asked([b"open %d %d" % (child.WHOLE, cache), b"%b %d %b" % (word, child.WHOLE, words), b"close %d" % child.WHOLE], at)
            if frames is not None:
                return [frames[1]] if refusal_in(frames[1]) else frames
        raise child.Down("the store's runs end before they answer")

    async def standing(self):
        """The run, once one stands."""
        await asyncio.wait_for(self.keeper.is_up.wait(), self.seconds)
        if self.keeper.down:
            raise child.Down(self.keeper.down)
        return self.keeper.run

    async def asked(self, lines, at):
        """The frames of lines; None where the run ended before it answered."""
        try:
            return await self.keeper.ask(lines, self.seconds)
        except child.Lost:
            await asyncio.sleep(PAUSE * at)
            return None

    def taken(self, viewer):
        """A session for a viewer: one that is free, or that of a viewer who was idle for long; else None."""
        if len(self.own) >= MOST_OWN:
            idle = gives_way(self.own)
            if idle is None:
                return None
            self.leave(idle)
        self.own[viewer] = Own(viewer, viewer.number_in(self))
        return self.own[viewer]

    def leave(self, viewer):
        """Takes a viewer's session away. It is closed before another one is opened."""
        own = self.own.pop(viewer, None)
        if own and own.run:
            self.closing[own.number] = own.run

    def to_close(self, run):
        """The numbers of the sessions of a run that are nobody's any more. Those of other runs ended with these."""
        self.closing = {number: of for number, of in self.closing.items() if of is run}
        return list(self.closing)

    def are_closed(self, numbers):
        for number in numbers:
            self.closing.pop(number, None)

    def close(self, viewer):
        """Closes what a viewer has who has gone."""
        self.leave(viewer)
        if self.closing and not self.tasks:
            task = asyncio.create_task(self._close_all())
            self.tasks.add(task)
            task.add_done_callback(self.tasks.discard)

    async def _close_all(self):
        try:
            numbers = self.to_close(await self.standing())
            if numbers and await self.asked([b"close %d" % number for number in numbers], 0):
                self.are_closed(numbers)
        except (child.Down, TimeoutError):
            pass  # without a run there is no session
