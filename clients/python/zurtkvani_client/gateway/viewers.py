"""The pages that look at the gateway's stores: of each what it has, what its requests are answered, and when it has gone.

A viewer has one number, over all stores, as a page has one session with serve.py. Viewers who have no session of their own share what is sent of the
same series in the same window on the same canvas, until that series changes.
"""
import asyncio
import collections
import itertools
import re
import struct
import time

from ..page_rules import CLOSED, GONE, OPENED, REFUSED, SESSION_OPEN, SWEEP, UNKNOWN_SESSION, refusal_in
from ..words import numbers_of
from .sessions import FIRST_OWN, Sessions

MOST_CACHE = 131_072
MOST_SHARED = 2**25  # bytes of frames that are kept to be shared
# What a page sends: the number of its session, and what stands behind it.
LINE = re.compile(
    rb"(?:open ([1-9][0-9]{0,9}) ([1-9][0-9]{0,5})|close ([1-9][0-9]{0,9})"
    rb"|(?P<follow>follow|unfollow) (?P<follower>[1-9][0-9]{0,9})"
    rb"|view (?P<viewer>[1-9][0-9]{0,9}) (?P<view>NAME WINDOW( where [^\n]*)?)"
    rb"|sum (?P<summer>[1-9][0-9]{0,9}) (?P<sum>NAME NAME( -?[0-9]{1,19}){2} WINDOW))\r?".replace(b"NAME", b"[A-Za-z0-9_.-]{1,31}")
    .replace(b"WINDOW", b"[0-9]{1,4} [0-9]{1,4}( -?[0-9]{1,19}){2} (?:auto|-?[0-9]{1,19}[.]{2}-?[0-9]{1,19})")
)
UNKNOWN_SERIES, NO_VIEW = numbers_of("UnknownSeries", "NoView")
MOST_PUSHES = 64  # frames that wait for a page


class Full(Exception):
    """There are as many viewers as there may be."""


class Viewer:
    def __init__(self, cache, numbers, seen):
        self.cache, self.numbers, self.own_numbers = cache, numbers, {}
        self.seen = seen  # how many changes were told, or had been before it came
        self.streams, self.asked, self.turn, self.is_over = 0, time.monotonic(), asyncio.Lock(), False
        self.last = self.follows = None  # the sessions of which one answered its last view alone, and those of which one is followed
        self.pushes, self.pushed = collections.deque(), 0  # frames that wait for its stream, and how many there were in all

    def number_in(self, sessions):
        """The number of this viewer's session in the runs over a store: always the same, and nobody else's in any."""
        if sessions not in self.own_numbers:
            self.own_numbers[sessions] = next(self.numbers)
        return self.own_numbers[sessions]

    def push(self, frame):
        """Keeps a frame until the page's stream sends it. A page that doesn't keep up has to begin anew."""
        self.pushes.append(frame)
        self.pushed += 1
        self.is_over = self.is_over or len(self.pushes) > MOST_PUSHES

    def is_gone(self):
        return self.streams == 0 and time.monotonic() - self.asked > GONE


class Shared:
    """What is sent of a view to several viewers: as of so many changes of each of its series, and of a run."""

    def __init__(self, count, run, work):
        self.count, self.run, self.task = count, run, asyncio.ensure_future(work)
        self.size = 0
        self.task.add_done_callback(self._note)

    def _note(self, task):
        self.size = 0 if task.cancelled() or task.exception() else sum(map(len, task.result()))


def refusal(number):
    return struct.pack(">IBBqq", 18, REFUSED, number, 0, 0)


class Viewers:
    """All viewers of a gateway."""

    def __init__(self, gateway):
        self.given, self.read, self.stores = gateway.given.page, gateway.given.read, gateway.stores
        self.news, self.counts = gateway.news, gateway.counts
        self.held, self.sessions, self.shared = {}, {}, collections.OrderedDict()
        self.numbers, self.sweeping = itertools.count(FIRST_OWN), None

    def start(self):
        self.sweeping = asyncio.create_task(self._sweep())

    async def stop(self):
        if self.sweeping:
            self.sweeping.cancel()
            await asyncio.wait({self.sweeping})

    async def answer(self, line):
        """The frames of a line: the one that answers it, and others that are for the viewer's client alone. Raises ValueError where no page sends
        such a line, Full, child.Down and TimeoutError."""
        found = LINE.fullmatch(line)
        if not found:
            raise ValueError("a line opens or closes a session, is a view or a sum, or follows a view, as the page sends them")
        opened, cache, closed = found.groups()[:3]
        if opened:
            return [self.opened(int(opened), int(cache))]
        if closed:
            return [self.closed(int(closed))]
        ways = (("viewer", "view", self.view), ("summer", "sum", self.sum), ("follower", "follow", self.follow))
        number, words, answer = next((found[number], found[words], answer) for number, words, answer in ways if found[words])
        viewer = self.held.get(int(number))
        if viewer is None:
            return [refusal(UNKNOWN_SESSION)]
        viewer.asked = time.monotonic()
        async with viewer.turn:
            try:
                return await answer(viewer, words)
            finally:
                if viewer.is_over:
                    self.close(viewer)

    def opened(self, number, cache):
        if number >= 2**32 or cache > MOST_CACHE:
            raise ValueError(f"a session's number is below 2^32, and its cache at most {MOST_CACHE:,}")
        if number in self.held:
            return refusal(SESSION_OPEN)
        if len(self.held) >= self.given.viewers:
            raise Full(f"{self.given.viewers} pages look at this gateway, as many as it takes at once")
        self.held[number] = Viewer(cache, self.numbers, self.news.count)
        return struct.pack(">IBII", 9, OPENED, number, cache)

    def closed(self, number):
        if not self.let_go(number):
            return refusal(UNKNOWN_SESSION)
        return struct.pack(">IBI", 5, CLOSED, number)

    async def view(self, viewer, words):
        known = self.stores.inner.get(words.partition(b" ")[0].decode())
        sessions = self.sessions_of(known.keeper if known else self.stores.keepers[0])
        if viewer.follows and viewer.follows is not sessions:
            await viewer.follows.follow(viewer, b"unfollow")
        viewer.follows, viewer.last = None, sessions
        frames, way = await sessions.view(viewer, words), "own"
        if frames is None:
            viewer.last = None
            frames, way = await self.whole(sessions, [known], viewer.cache, b"view", words)
        self.counts.add("page_views_total", way=way)
        return frames

    async def follow(self, viewer, word):
        """The frame by which a viewer with a session of its own follows its last view. All others are told what changes, and ask again."""
        frame = await viewer.last.follow(viewer, word) if viewer.last else None
        if frame is None:
            return [refusal(NO_VIEW)]
        viewer.follows = None if refusal_in(frame) or word == b"unfollow" else viewer.last
        return [frame]

    def pushed(self, keeper, frame):
        """Takes in a frame that a session of a run over a store is pushed."""
        if keeper in self.sessions:
            self.sessions[keeper].pushed(frame)

    def pushed_to(self, line):
        """How many frames were pushed to the session of a line."""
        number = line.split()[1]
        viewer = self.held.get(int(number)) if number.isdigit() else None
        return viewer.pushed if viewer else 0

    async def sum(self, viewer, words):
        """The frames of a sum of two series, which is sent whole: it leaves what a client keeps as it is. Both are of one store."""
        pair = [self.stores.inner.get(name.decode()) for name in words.split(b" ", 2)[:2]]
        keepers = {known.keeper for known in pair if known}
        if None in pair or len(keepers) > 1:
            return [refusal(UNKNOWN_SERIES)]
        frames, way = await self.whole(self.sessions_of(keepers.pop()), pair, viewer.cache, b"sum", words)
        self.counts.add("page_views_total", way=way)
        return frames

    def sessions_of(self, keeper):
        if keeper not in self.sessions:
            self.sessions[keeper] = Sessions(keeper, self.read.seconds / 10**9)
        return self.sessions[keeper]

    async def whole(self, sessions, series, cache, word, words):
        """The frames of a view or a sum for whoever has no session of its own, and whether they were asked for or are another viewer's, too."""
        key, way = (sessions, cache, word, words), "shared"
        run, count = await sessions.standing(), [self.news.of(known.name) for known in series if known]
        shared = self.shared.pop(key, None)
        if shared is None or (shared.run, shared.count) != (run, count):
            shared, way = Shared(count, run, sessions.whole(cache, word, words)), "whole"
        self.shared[key] = shared
        try:
            return await asyncio.shield(shared.task), way
        except BaseException:
            if self.shared.get(key) is shared and shared.task.done():
                del self.shared[key]
            raise
        finally:
            while sum(one.size for one in self.shared.values()) > MOST_SHARED:
                self.shared.popitem(last=False)

    def attach(self, number):
        """The viewer who holds a session from now on by a stream, or None where it isn't open."""
        viewer = self.held.get(number)
        if viewer:
            viewer.streams += 1
        return viewer

    def detach(self, viewer):
        viewer.streams -= 1
        viewer.asked = time.monotonic()

    def let_go(self, number):
        """Gives back all that a viewer has; tells whether there was one."""
        viewer = self.held.pop(number, None)
        if viewer:
            viewer.is_over = True
            self.news.wake()
            self.close(viewer)
        return viewer is not None

    def close(self, viewer):
        for sessions in self.sessions.values():
            sessions.close(viewer)

    async def _sweep(self):
        """Lets go, again and again, the viewers who are gone."""
        while True:
            await asyncio.sleep(SWEEP)
            self.let_go_of_gone()

    def let_go_of_gone(self):
        for number in [number for number, viewer in self.held.items() if viewer.is_over or viewer.is_gone()]:
            self.let_go(number)
