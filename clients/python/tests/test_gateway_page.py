"""The page behind a gateway: many viewers of few sessions, what they draw, what comes of those who go, and of runs that are killed."""
import hashlib
import json
import os
import random
import shutil
import signal
import tempfile
import threading
import unittest

from gateway_server import OverAGateway, T, require_all
from page_viewer import Denied, Viewer, derived, drawn, names_in, slots_of

require_all()

from zurtkvani_client import frames, page_rules  # noqa: E402

SLOTS = 3000


def lines_of(name, first, count, chance):
    return "\n".join(f"{name} v={chance.randint(-9999, 9999) / 100} {T + first + at}" for at in range(count))


def at_once(works):
    """Does some works at once, and raises what one of them raises."""
    failures = []

    def done(work):
        try:
            work()
        except BaseException as why:
            failures.append(why)

    threads = [threading.Thread(target=done, args=(work,)) for work in works]
    for thread in threads:
        thread.start()
    for thread in threads:
        thread.join()
    if failures:
        raise failures[0]


class Viewed(OverAGateway):
    STORES = ("gateway.store",)

    def setUp(self):
        super().setUp()
        self.chance = random.Random(5)
        for name in ("sea", "tide", "wind"):
            self.require_written(lines_of(name, 0, SLOTS, self.chance))

    def viewers(self, count):
        found = [Viewer(self.gateway.port, 1000 + number) for number in range(count)]
        self.addCleanup(lambda: [viewer.hang_up() for viewer in found])
        for viewer in found:
            self.assertEqual(viewer.open(), frames.OPENED)
            viewer.listen()  # so that none counts as gone, however slow this is
        return found

    def drawn(self, views):
        """What `draw` makes of views of the stores as they are, which nobody edits now."""
        found = {}
        for store in self.STORES:
            with tempfile.NamedTemporaryFile() as copy:
                shutil.copyfile(os.path.join(self.gateway.stores, store), copy.name)
                names = names_in(copy.name)
                wanted = [words for words in set(views) if words.split()[0] in names]
                found.update(zip(wanted, drawn(copy.name, wanted)))
        return found

    def require_exact(self, viewers, views_of):
        """Has all viewers draw at once, and compares each picture."""
        views = [views_of(at) for at in range(len(viewers))]
        pictures = {}

        def work(at):
            pictures[at] = viewers[at].pictures(*views[at])

        at_once([lambda at=at: work(at) for at in range(len(viewers))])
        wanted = self.drawn([words for some in views for words in some])
        for at, some in enumerate(views):
            for words, picture in zip(some, pictures[at], strict=True):
                self.assertEqual(picture, wanted[words], f"viewer {at}: {words}")

    def require_no_push(self, viewer, series, turn):
        """A change of a series is told, and nothing is pushed."""
        self.require_written(f"{series} v={turn} {T + SLOTS + turn}")
        told, name, slots = [], f"{series}_v", slots_of(viewer, f"{series}_v")
        while (name, slots) not in told:
            event, value = viewer.event()
            self.assertNotEqual(event, "pushed", value)
            told += [(one["name"], one["slots"]) for one in value] if event == "changed" else []

    def ways(self):
        """How many views were answered by each way."""
        text = 'zurtkvani_gateway_page_views_total{way="'
        return {name[len(text) : -2]: int(count) for name, count in self.gateway.metrics().items() if name.startswith(text)}


def views_of(at):
    """The views of a viewer: some have their window and canvas in common with others."""
    low, width = T + 100 * (at % 5), 150 + 10 * (at % 4)
    names = ("sea_v", "tide_v", "wind_v")
    return [
        f"{names[at % 3]} {width} 60 {low} {low + 2000} auto", f"{names[(at + 1) % 3]} {width} 40 {low} {low + 700} -9999..9999",
        f"sea_v {width} 50 {T} {T + SLOTS} auto where v > {at % 3}",
    ]


class Crowd(Viewed):
    def test_forty_viewers_draw_what_draw_makes(self):
        viewers = self.viewers(40)
        self.require_exact(viewers, views_of)
        ways = self.ways()
        self.assertEqual(sum(ways.values()), 120)
        self.assertTrue(ways.get("own"), ways)
        # Edits change some of what they have, and all of them draw again, whichever way they were answered before.
        self.require_written(lines_of("sea", 500, 300, self.chance) + "\n" + lines_of("tide", SLOTS, 20, self.chance))
        self.require_exact(viewers, views_of)
        self.require_exact(viewers, lambda at: views_of(at + 1))
        self.require_exact(viewers[::-1], lambda at: views_of(at)[:1])
        self.assertEqual(self.gateway.metrics()["zurtkvani_gateway_page_viewers"], 40)

    def test_forty_viewers_of_one_window(self):
        viewers, words = self.viewers(40), f"sea_v 200 60 {T} {T + SLOTS} auto"
        for _ in range(2):
            self.require_exact(viewers, lambda _: [words])
        self.assertEqual(sum(self.ways().values()), 80)
        self.require_written(f"sea v=1000 {T + 7}\ntide v=1000 {T + 7}")
        self.require_exact(viewers, lambda _: [words])

    def test_who_goes_gives_back_what_he_had(self):
        viewers, words = self.viewers(20), f"sea_v 200 60 {T} {T + SLOTS} auto"
        for viewer in viewers:
            viewer.pictures(words)
        for viewer in viewers[:3]:
            self.assertEqual(viewer.close(), frames.CLOSED)
            self.assertEqual(viewer.pictures(words), [frames.Refused(4, 0, 0)])
        for _ in range(3):
            viewers.append(Viewer(self.gateway.port, 5 + len(viewers)))
            viewers[-1].open()
            self.addCleanup(viewers[-1].listen().hang_up)
        self.require_exact(viewers[3:], views_of)
        self.assertEqual(self.gateway.metrics()["zurtkvani_gateway_page_viewers"], 20)


class Sums(Viewed):
    SUMS = [
        f"sea_v tide_v 1 -1 150 60 {T} {T + SLOTS} auto", f"tide_v wind_v 3 2 200 40 {T + 500} {T + 900} -9999..9999",
        f"sea_v sea_v -2 1 90 30 {T} {T + SLOTS} auto",
    ]

    def require_exact_sums(self, viewers):
        """Has all viewers draw sums and views by turns, and compares each picture."""
        with tempfile.NamedTemporaryFile() as copy:
            shutil.copyfile(os.path.join(self.gateway.stores, "gateway.store"), copy.name)
            wanted = derived(copy.name, self.SUMS)
        at_once([lambda viewer=viewer: self.assertEqual(viewer.sums(*self.SUMS), wanted) for viewer in viewers])
        self.require_exact(viewers, views_of)
        at_once([lambda viewer=viewer: self.assertEqual(viewer.sums(*self.SUMS), wanted) for viewer in viewers])

    def test_twenty_viewers_draw_sums_as_derive_does(self):
        self.assertEqual(self.gateway.ask("/catalog", b"")[2][page_rules.OFFERS], "sum follow")
        viewers = self.viewers(20)
        self.require_exact_sums(viewers)
        # An edit of the second series alone changes a sum, too.
        self.require_written(lines_of("tide", 500, 300, self.chance))
        self.require_exact_sums(viewers)

    def test_a_sum_that_there_isnt_is_refused(self):
        (viewer,) = self.viewers(1)
        window = f"9 9 {T} {T + 9} auto"
        self.assertEqual(viewer.sums(f"sea_v none 1 1 {window}", f"sea_v tide_v 1 1 9 9 {T} {T} auto"), [frames.Refused(8, 0, 0), frames.Refused(17, 0, 0)])
        for words in (f"sea_v tide_v 1 1 {window} where v > 1", f"sea_v 1 1 {window}", f"../x sea_v 1 1 {window}"):
            with self.assertRaises(Denied):
                viewer.sums(words)


class Pushes(Viewed):
    def require_told(self, viewers, words, turn):
        """One value more is told to all viewers, and they draw it."""
        self.require_written(f"sea v={turn * 300} {T + SLOTS + turn}")
        slots = slots_of(viewers[0], "sea_v")
        for viewer in viewers:
            while viewer.changed().get("sea_v") != slots:
                pass
        self.require_exact(viewers, lambda _: [words])

    def test_forty_viewers_are_told_what_changes_and_draw_it(self):
        viewers, words = self.viewers(40), f"sea_v 200 60 {T} {T + 2 * SLOTS} auto"
        self.require_exact(viewers, lambda _: [words])
        for turn in range(4):
            self.require_told(viewers, words, turn)
        metrics = self.gateway.metrics()
        self.assertGreaterEqual(metrics["zurtkvani_gateway_pushes_total"], 4 * 40)
        self.assertGreater(metrics["zurtkvani_gateway_push_seconds_total"], 0)

    def test_what_is_followed_is_pushed(self):
        viewers, words = self.viewers(16), f"sea_v 200 60 {T} {T + 2 * SLOTS} auto"
        self.assertEqual(viewers[0].follow(), frames.Refused(16, 0, 0))
        self.require_exact(viewers, lambda _: [words])
        # Those who have a session of their own may follow their views.
        told = [viewer.follow() for viewer in viewers]
        followers = [viewer for viewer, frame in zip(viewers, told) if isinstance(frame, frames.Live) and frame.on]
        self.assertEqual((len(followers), told.count(frames.Refused(16, 0, 0))), (14, 2))
        for turn in range(3):
            self.require_written("\n".join(f"sea v={turn * 300 + at} {T + SLOTS + 90 * turn + at}" for at in range(70)))
            wanted = self.drawn([words])[words]
            for viewer in followers:
                while viewer.pushed() != wanted:
                    pass
        self.require_exact(viewers, lambda _: [words])
        # Another view ends it, and so does a line.
        one, other = followers[:2]
        for viewer in (one, other):
            while viewer.event()[0] != "changed":
                pass
        self.assertEqual(one.follow().on, True)
        self.assertEqual(one.follow("unfollow").on, False)
        self.require_no_push(one, "sea", 1000)
        self.require_no_push(other, "sea", 1001)
        self.assertEqual(self.gateway.metrics()['zurtkvani_gateway_store_up{store="gateway.store"}'], 1)

    def test_a_killed_run_pushes_no_more_until_it_is_followed_anew(self):
        (viewer,), words = self.viewers(1), f"sea_v 200 60 {T} {T + 2 * SLOTS} auto"
        for turn in range(2):
            self.require_exact([viewer], lambda _: [words])
            self.assertTrue(viewer.follow().on)
            self.require_written(f"sea v={turn} {T + SLOTS + 2 * turn}")
            self.assertEqual(viewer.pushed(), self.drawn([words])[words])
            while viewer.event()[0] != "changed":
                pass
            self.gateway.kill_runs()
            self.require_no_push(viewer, "sea", 2 * turn + 1)

    def test_a_killed_run_is_started_again_and_viewers_go_on(self):
        viewers, words = self.viewers(20), f"sea_v 200 60 {T} {T + 2 * SLOTS} auto"
        self.require_exact(viewers, lambda _: [words])
        for turn in range(3):
            (child,) = self.gateway.children()
            os.kill(child, signal.SIGKILL)
            self.require_exact(viewers, lambda _: [words])
            self.require_told(viewers, words, turn)
        self.assertNotEqual(self.gateway.children(), [child])

    def test_what_changes_before_the_stream_stands_is_told(self):
        viewer = Viewer(self.gateway.port, 5)
        viewer.open()
        self.require_written(f"sea v=1 {T + SLOTS}")
        self.addCleanup(viewer.listen().hang_up)
        self.assertEqual(viewer.changed(), {"sea_v": slots_of(viewer, "sea_v")})

    def test_a_new_series_is_told(self):
        (viewer,) = self.viewers(1)
        self.require_written(f"fresh v=1 {T}")
        while "fresh_v" not in viewer.changed():
            pass
        names = {one["name"]: one["slots"] for one in json.loads(viewer.post("/catalog", b""))}
        self.assertEqual(set(names), {"sea_v", "tide_v", "wind_v", "fresh_v"})
        self.assertEqual(names["fresh_v"], names["sea_v"] - SLOTS + 1)
        self.require_written(f"fresh,room=cellar v=1 {T}")
        new = set()
        while not new:
            new = viewer.changed().keys() - names.keys()
        (name,) = new
        (shown,) = [one["shown"] for one in json.loads(viewer.post("/catalog", b"")) if one["name"] == name]
        self.assertEqual(shown, 'fresh_v{room="cellar"}')


class Stores(Viewed):
    STORES = ("one.store", "other.store")
    SECTIONS = {"stores": 'files = ["one.store", "other.store"]'}

    def test_series_of_two_stores_on_one_page(self):
        viewers = self.viewers(24)
        self.assertEqual({one["name"] for one in json.loads(viewers[0].post("/catalog", b""))}, {"sea_v", "tide_v", "wind_v"})
        for _ in range(3):
            self.require_exact(viewers, views_of)
            self.require_written(lines_of("sea", 100, 50, self.chance) + "\n" + lines_of("wind", 100, 50, self.chance))
        self.require_exact(viewers, lambda at: views_of(at + 1))
        # What is followed in one store isn't any more behind a view of another one.
        for turn, name in enumerate(("tide_v", "wind_v")):
            viewers[0].pictures(f"sea_v 200 60 {T} {T + 2 * SLOTS} auto")
            self.assertTrue(viewers[0].follow().on)
            viewers[0].pictures(f"{name} 200 60 {T} {T + 2 * SLOTS} auto")
            self.require_no_push(viewers[0], "sea", turn)
        # A sum is of series that one store has.
        window = f"9 9 {T} {T + 9} auto"
        pairs = [f"{one} {other} 1 1 {window}" for one in ("sea_v", "tide_v", "wind_v") for other in ("sea_v", "tide_v", "wind_v")]
        refused = sum(answer == frames.Refused(8, 0, 0) for answer in viewers[0].sums(*pairs))
        self.assertEqual(refused, 4)


class Let(Viewed):
    SECTIONS = {
        "tokens": "".join(f'{kind} = ["{hashlib.sha256(kind.encode()).hexdigest()}"]\n' for kind in ("read", "write")),
        "page": "viewers = 3",
    }

    def require_written(self, lines, **named):
        super().require_written(lines, Authorization="Bearer write", **named)

    def test_who_may_look_and_what_is_taken(self):
        own = f"http://127.0.0.1:{self.gateway.port}"
        for path in ("/", "/page.css", "/panels.css", "/page/main.js", "/chart_client.js", "/client/views.js", "/proved_client.js", "/refusals.js"):
            status, _, headers = self.gateway.ask(path)
            self.assertEqual((status, {name: headers.get(name) for name in page_rules.HEADERS}), (200, page_rules.HEADERS), path)
        paths = ("/serve.py", "/page/../serve.py", "/page/main.py", "/page/", "/page/no_such.js", "/page_server/handler.py", "/%2e%2e/web/serve.py")
        for path in paths:
            self.assertEqual(self.gateway.ask(path)[0], 404, path)
        cases = [
            ({"X-Chart-Token": "read"}, 200), ({"X-Chart-Token": "write"}, 401), ({}, 401), ({"X-Chart-Token": "read", "Origin": own}, 200),
            ({"X-Chart-Token": "read", "Origin": "http://elsewhere.example"}, 403), ({"X-Chart-Token": "read", "Host": "elsewhere.example"}, 403),
        ]
        for headers, wanted in cases:
            for path in ("/catalog", "/request", "/events"):
                got = self.gateway.ask(path, "close 5" if path == "/request" else "5", **headers)[0]
                self.assertEqual(got, 404 if (path, wanted) == ("/events", 200) else wanted, (path, headers))
        allowed = {"X-Chart-Token": "read"}
        for lines, wanted in (
            ("set sea_v 0 1", 403), ("open 1 5\nappend sea_v 5", 403), (" close 1", 403), ("", 400), ("open 1\n\n", 400), ("open 0 5", 400),
            ("open 4294967296 5", 400), ("open 5 131073", 400), ("view 1 ../x 1 1 0 1 auto", 400), ("close 1" + " " * 9000, 400),
            ("\n".join(["close 1"] * 65), 400), ("close 1\n" * 9000, 400),
        ):
            self.assertEqual(self.gateway.ask("/request", lines, **allowed)[0], wanted, lines[:40])

    def test_no_more_viewers_than_there_may_be(self):
        viewers = [Viewer(self.gateway.port, number, **{"X-Chart-Token": "read"}) for number in range(1, 5)]
        for viewer in viewers[:3]:
            viewer.open()
            self.addCleanup(viewer.listen().hang_up)
        with self.assertRaisesRegex(Denied, "503 .*3 pages look at this gateway"):
            viewers[3].open()
        self.assertEqual(viewers[0].open(), frames.REFUSED)
        viewers[0].close()
        self.assertEqual(viewers[3].open(), frames.OPENED)

    def test_a_closed_session_ends_its_stream(self):
        viewer = Viewer(self.gateway.port, 7, **{"X-Chart-Token": "read"})
        viewer.open()
        viewer.listen()
        Viewer.request(viewer, "close 7")
        with self.assertRaises(Denied):
            while True:
                viewer.changed()
        viewer.hang_up()


if __name__ == "__main__":
    unittest.main()
