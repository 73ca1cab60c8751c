"""How viewers of the page behind a gateway have sessions, over runs that are played: which they get, and what comes of those who go."""
import asyncio
import struct
import types
import unittest
import unittest.mock

from gateway_server import require_all

require_all()

from zurtkvani_client import page_rules  # noqa: E402
from zurtkvani_client.gateway import child, sessions, viewers  # noqa: E402
from zurtkvani_client.gateway.metrics import Counts  # noqa: E402
from zurtkvani_client.gateway.news import News  # noqa: E402
from zurtkvani_client.gateway.sessions import MOST_OWN  # noqa: E402
from zurtkvani_client.gateway.viewers import MOST_SHARED, Full, Viewers  # noqa: E402
from zurtkvani_client.store import Series  # noqa: E402

OPENED, CLOSED, VIEW, REFUSED = page_rules.OPENED, page_rules.CLOSED, page_rules.VIEW, page_rules.REFUSED
WORDS = b"a 9 9 0 9 auto"


class Keeper:
    """Plays the runs over a store: sixteen sessions, one of them the gateway's. A view's frame has its session's number, and how many came before."""

    def __init__(self):
        self.is_up, self.down, self.lose, self.size, self.views = asyncio.Event(), None, 0, 20, 0
        self.begin()

    def begin(self):
        self.run, self.open = object(), {1}
        self.is_up.set()

    async def ask(self, lines, seconds):
        await asyncio.sleep(0)
        if self.lose:
            self.lose -= 1
            self.begin()
            raise child.Lost("killed")
        return [self.answer(*line.split(b" ", 2)) for line in lines]

    def answer(self, word, number, *_):
        number = int(number)
        if word == b"open":
            assert len(self.open) < 16, "the gateway opens more sessions than there are"
            if number in self.open:
                return refused(page_rules.SESSION_OPEN)
            self.open.add(number)
            return struct.pack(">IBII", 9, OPENED, number, 100)
        if number not in self.open:
            return refused(page_rules.UNKNOWN_SESSION)
        if word == b"close":
            self.open.remove(number)
            return struct.pack(">IBI", 5, CLOSED, number)
        self.views += 1
        return struct.pack(">IBII", self.size, VIEW, number, self.views) + bytes(self.size)


def refused(number):
    return struct.pack(">IBBqq", 18, REFUSED, number, 0, 0)


def kinds(frames):
    return [frame[4] for frame in frames]


class OverAKeeper(unittest.IsolatedAsyncioTestCase):
    async def asyncSetUp(self):
        self.keeper = Keeper()
        # No time passes but what a test makes pass.
        for module in (sessions, viewers):
            patched = unittest.mock.patch.object(module, "time", types.SimpleNamespace(monotonic=lambda: 0.0))
            patched.start()
            self.addCleanup(patched.stop)
        known = types.SimpleNamespace(name="a", keeper=self.keeper)
        page, read = types.SimpleNamespace(viewers=40), types.SimpleNamespace(seconds=60 * 10**9)
        self.news = News()
        stores = types.SimpleNamespace(inner={"a": known}, keepers=[self.keeper])
        self.viewers = Viewers(types.SimpleNamespace(
            given=types.SimpleNamespace(page=page, read=read), stores=stores, news=self.news, counts=Counts()
        ))

    async def come(self, count, first=1):
        for number in range(first, first + count):
            self.assertEqual(kinds(await self.viewers.answer(b"open %d 100" % number)), [OPENED])

    def view(self, number, words=WORDS):
        return self.viewers.answer(b"view %d %b" % (number, words))

    async def kinds_of(self, *numbers):
        return [kinds(await self.view(number)) for number in numbers]

    def wait(self, number, seconds):
        """Makes a viewer one who asked nothing for so long."""
        viewer = self.viewers.held[number]
        viewer.asked -= seconds
        for one in self.viewers.sessions.values():
            if viewer in one.own:
                one.own[viewer].asked -= seconds

    async def settled(self):
        """Waits until nothing is being closed."""
        for one in self.viewers.sessions.values():
            while one.tasks:
                await asyncio.wait(one.tasks)

    async def test_the_first_have_sessions_and_the_others_are_served_by_one(self):
        await self.come(40)
        own, whole = [[OPENED, VIEW]], [[OPENED, VIEW, CLOSED]]
        self.assertEqual(await self.kinds_of(*range(1, 41)), own * MOST_OWN + whole * (40 - MOST_OWN))
        self.assertEqual(await self.kinds_of(*range(1, 41)), [[VIEW]] * MOST_OWN + whole * (40 - MOST_OWN))
        # Of one window all others had the frames of one.
        self.assertEqual((len(self.keeper.open), self.keeper.views), (1 + MOST_OWN, 2 * MOST_OWN + 1))
        with self.assertRaises(Full):
            await self.viewers.answer(b"open 41 100")

    async def test_what_is_shared_is_as_of_now(self):
        await self.come(16)
        await self.kinds_of(*range(1, 15))
        one = await self.view(15)
        self.assertEqual(await self.view(16), one)
        self.news.tell([Series("b", 0, 1, 0, 9)])
        self.assertEqual(await self.view(16), one)
        self.news.tell([Series("a", 0, 1, 0, 9)])
        two = await self.view(16)
        self.assertNotEqual(two, one)
        self.assertEqual(await self.view(15), two)
        self.keeper.begin()
        self.assertNotEqual(await self.view(15), two)
        self.assertNotEqual((await self.view(15, WORDS + b" where v > 5"))[1], (await self.view(15))[1])

    async def test_a_shared_sum_is_as_of_now(self):
        await self.come(2)
        self.viewers.stores.inner["b"] = types.SimpleNamespace(name="b", keeper=self.keeper)

        def sum_of(number):
            return self.viewers.answer(b"sum %d a b 1 -1 9 9 0 9 auto" % number)

        one = await sum_of(1)
        self.assertEqual((kinds(one), await sum_of(2)), ([OPENED, VIEW, CLOSED], one))
        for name in ("b", "a"):
            self.news.tell([Series(name, 0, 1, 0, 9)])
            two = await sum_of(1)
            self.assertNotEqual(two, one)
            self.assertEqual(await sum_of(2), two)
            one = two
        self.assertEqual(self.keeper.open, {1})

    async def test_no_more_is_kept_to_be_shared_than_there_is_room_for(self):
        await self.come(15)
        await self.kinds_of(*range(1, 15))
        self.keeper.size = MOST_SHARED // 4
        for at in range(9):
            await self.view(15, b"a %d 9 0 9 auto" % (at + 1))
        self.assertEqual(len(self.viewers.shared), 3)

    async def test_views_at_once_are_asked_for_once(self):
        await self.come(40)
        await self.kinds_of(*range(1, 15))
        found = await asyncio.gather(*(self.view(number) for number in range(15, 41)))
        self.assertEqual(found, [found[0]] * 26)
        self.assertEqual(self.keeper.views, 15)

    async def test_a_session_that_is_left_or_idle_is_another_ones(self):
        await self.come(17)
        await self.kinds_of(*range(1, 15))
        self.assertEqual(kinds(await self.viewers.answer(b"close 1")), [CLOSED])
        await self.settled()
        self.assertEqual(len(self.keeper.open), MOST_OWN)
        self.assertEqual(await self.kinds_of(15, 16), [[OPENED, VIEW], [OPENED, VIEW, CLOSED]])
        self.assertEqual(await self.view(1), [refused(page_rules.UNKNOWN_SESSION)])
        self.viewers.attach(2)
        self.wait(2, page_rules.IDLE[False] + 1)
        self.assertEqual(await self.kinds_of(16), [[OPENED, VIEW, CLOSED]])
        self.wait(3, page_rules.IDLE[False] + 1)
        self.assertEqual(await self.kinds_of(16, 3, 16), [[OPENED, VIEW], [OPENED, VIEW, CLOSED], [VIEW]])
        self.wait(2, page_rules.IDLE[True])
        self.assertEqual(await self.kinds_of(17, 2), [[OPENED, VIEW], [OPENED, VIEW, CLOSED]])
        self.assertEqual(len(self.keeper.open), 1 + MOST_OWN)

    async def test_a_run_that_is_killed(self):
        await self.come(16)
        await self.kinds_of(*range(1, 17))
        self.keeper.lose = 2
        self.assertEqual(await self.kinds_of(1, 16, 1, 2), [[OPENED, VIEW], [OPENED, VIEW, CLOSED], [VIEW], [OPENED, VIEW]])
        # One that was begun again between two looks has none of its sessions.
        self.keeper.open = {1}
        self.assertEqual(await self.kinds_of(1, 2, 1), [[OPENED, VIEW], [OPENED, VIEW], [VIEW]])
        self.keeper.lose = 100
        for number in (1, 16):
            with self.assertRaises(child.Down):
                await self.view(number)
        self.keeper.lose, self.keeper.down = 0, "given up"
        with self.assertRaises(child.Down):
            await self.view(1)

    async def test_viewers_who_are_gone_are_let_go(self):
        await self.come(3)
        await self.kinds_of(1, 2, 3)
        two = self.viewers.attach(2)
        for number in (1, 2):
            self.wait(number, page_rules.GONE + 1)
        self.viewers.let_go_of_gone()
        await self.settled()
        self.assertEqual((sorted(self.viewers.held), len(self.keeper.open)), ([2, 3], 3))
        self.viewers.detach(two)
        self.viewers.let_go_of_gone()
        self.assertEqual(sorted(self.viewers.held), [2, 3])
        self.wait(2, page_rules.GONE + 1)
        self.viewers.let_go_of_gone()
        await self.settled()
        self.assertEqual((sorted(self.viewers.held), len(self.keeper.open)), ([3], 2))

    async def test_who_goes_while_it_is_answered_leaves_nothing(self):
        await self.come(1)
        answer = asyncio.create_task(self.view(1))
        await asyncio.sleep(0)
        await self.viewers.answer(b"close 1")
        await answer
        await self.settled()
        self.assertEqual((self.viewers.held, self.keeper.open), ({}, {1}))


if __name__ == "__main__":
    unittest.main()
