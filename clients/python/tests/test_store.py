"""Stores, sessions, pictures and how they end, over the built program."""
import os
import signal
import subprocess
import sys
import tempfile
import threading
import time
import unittest
import zlib
from random import Random
from unittest import mock

from waiting import until

ROOT = os.path.dirname(os.path.dirname(os.path.dirname(os.path.dirname(os.path.realpath(__file__)))))
PROGRAM = os.path.join(ROOT, "crates/chart_program/out/chart_program")
sys.path.insert(0, os.path.join(ROOT, "clients/python"))

from zurtkvani_client import Ended, Refused, Store  # noqa: E402


class Numbers(list):
    """What stands for an array of numpy here: its own list is in `tolist`."""

    def tolist(self):
        return list(self)


class OverAStore(unittest.TestCase):
    def setUp(self):
        folder = tempfile.TemporaryDirectory()
        self.addCleanup(folder.cleanup)
        self.path = os.path.join(folder.name, "a.store")
        with open(self.path, "wb") as file:
            file.truncate(4096 * 256)
        subprocess.run([PROGRAM, self.path, "init"], check=True)

    def store(self):
        return Store(self.path, program=PROGRAM)

    def drawn(self, lines):
        """What `draw` makes of what `serve` sends for these lines, over the store."""
        frames = subprocess.run([PROGRAM, self.path, "serve"], input=lines, stdout=subprocess.PIPE, check=True).stdout
        return subprocess.run([PROGRAM, "-", "draw"], input=frames, stdout=subprocess.PIPE, check=True).stdout

    def test_pictures_are_those_of_draw(self):
        with self.store() as store:
            store.create("a", 0, 10)
            store.append("a", [4, 7, None, 2])
            store.append("a", range(300))
            store.set("a", 20, [-5])
            store.clear("a", 0, 1)
            with store.session() as session:
                pictures = [session.view("a", 50, 20, 0, 400), session.zoom(0, 40), session.pan(10)]
                pictures.append(session.view("a", 50, 20, 0, 4000, range=(-3, 200), where="v > 1"))
        lines = b"open 1\nview 1 a 50 20 0 400 auto\nzoom 1 0 40\npan 1 10\nview 1 a 50 20 0 4000 -3..200 where v > 1\n"
        self.assertEqual(b"".join(picture.to_pbm() for picture in pictures), self.drawn(lines))
        self.assertEqual((pictures[1].lo, pictures[1].hi), (-5, 7))

    def test_a_picture_by_hand(self):
        with self.store() as store:
            store.create("a", 0, 1)
            store.append("a", [0, None, None, 3])
            picture = store.session().view("a", 4, 4, 0, 6)
        self.assertEqual(picture.to_pbm(), bytes.fromhex("50340a3420340a20404080"))
        self.assertEqual(bytes(picture.pixels), b"1000" b"0100" b"0100" b"0010")
        self.assertEqual(repr(picture), "<Picture: a, 1970-01-01T00:00:00Z to 1970-01-01T00:00:06Z, 4 by 4 pixels, 0.0 to 3.0>")

    def test_the_png_holds_the_pixels(self):
        with self.store() as store:
            store.create("a", 0, 1)
            store.append("a", [0, 9, 3, 5, 5, 1, 8])
            picture = store.session().view("a", 21, 9, 0, 7)
        png = picture._repr_png_()
        self.assertEqual(png[:16].hex(), "89504e470d0a1a0a0000000d49484452")
        self.assertEqual(png[16:29].hex(), "00000015" "00000009" "01" "00" "00" "00" "00")
        at = png.index(b"IDAT")
        length = int.from_bytes(png[at - 4 : at], "big")
        self.assertEqual(int.from_bytes(png[at + 4 + length : at + 8 + length], "big"), zlib.crc32(png[at : at + 4 + length]))
        lines = zlib.decompress(png[at + 4 : at + 4 + length])
        pbm = picture.to_pbm()[len(b"P4\n21 9\n") :]
        self.assertEqual(len(lines), 9 * 4)
        for row in range(9):
            self.assertEqual(lines[4 * row], 0)
            self.assertEqual(bytes(255 - byte for byte in lines[4 * row + 1 : 4 * row + 4]), pbm[3 * row : 3 * row + 3])

    def test_refusals_have_number_name_and_numbers(self):
        with self.store() as store:
            store.create("a", 0, 10)
            session = store.session(cache=7)
            cases = [
                (9, "SeriesExists", 0, 0, lambda: store.create("a", 0, 1)),
                (8, "UnknownSeries", 0, 0, lambda: store.append("b", [1])),
                (11, "OffGrid", 0, 0, lambda: store.set("a", 5, [1])),
                (13, "ValueTooLarge", 0, 0, lambda: store.append("a", [10**18 + 1])),
                (14, "RangeTooLong", 0, 0, lambda: store.clear("a", 0, 4097)),
                (16, "NoView", 0, 0, lambda: session.pan(1)),
                (3, "BadFilter", 3, 0, lambda: session.view("a", 4, 4, 0, 9, where="v >")),
                (2, "BadLine", 7, 0, lambda: store.append("", [1])),
            ]
            for number, name, a, b, request in cases:
                with self.assertRaises(Refused) as met:
                    request()
                told = met.exception
                self.assertEqual((told.number, told.name, told.a, told.b), (number, name, a, b))
            with self.assertRaisesRegex(Refused, "at byte 9 of 'create a b 0 1 0'"):
                store.create("a b", 0, 1)
            store.append("a", [4, 7, 2])
            with self.assertRaises(Refused) as met:
                session.view("a", 4, 4, 0, 40)
            self.assertEqual((met.exception.number, met.exception.a, met.exception.b), (20, 8, 7))

    def test_a_line_feed_makes_no_second_request(self):
        with self.store() as store:
            store.create("a", 0, 1)
            with self.assertRaises(ValueError):
                store.session().view("a", 4, 4, 0, 9, where="v > 1\ncreate b 0 1 0")

    def test_values_are_numbers(self):
        with self.store() as store:
            store.create("a", 0, 1)
            for values in (["1 2"], ["-"], [1, 1.5], "12", b"12", {1: 2}, {1, 2}, 7, None):
                with self.assertRaises(TypeError):
                    store.append("a", values)
                with self.assertRaises(TypeError):
                    store.set("a", 0, values)
            store.append("a", Numbers([1, None, 3]))
            store.append("a", [])
            store.set("a", 0, [])
            with self.assertRaises(Refused):
                store.append("b", [])
            with self.assertRaises(ValueError):
                store.draw("a", range=(1,))
            picture = store.session().view("a", 3, 3, 0, 3)
        self.assertEqual((picture.lo, picture.hi), (1, 3))

    def test_series_and_values(self):
        self.assertEqual(self.store().series(), [])
        stored = {-7: -5, -2: 150, 8: 200}
        with self.store() as store:
            store.create("a", -7, 5, 2)
            store.append("a", [-5, 150, None, 200])
            store.create("b", 0, 1)
            self.assertEqual(store.series(), [("a", -7, 5, 2, 4), ("b", 0, 1, 0, 0)])
        self.assertEqual(store.series(), [("a", -7, 5, 2, 4), ("b", 0, 1, 0, 0)])
        self.assertEqual(store.series()[0].step, 5)
        self.assertEqual(dict(store.values("a")), stored)
        self.assertEqual(list(store.values("a", -7, 8)), [(-7, -5), (-2, 150)])
        self.assertEqual(list(store.values("b")), [])
        with self.assertRaises(Refused) as met:
            list(store.values("c"))
        self.assertEqual(met.exception.name, "UnknownSeries")
        with self.assertRaises(Ended) as ended:
            list(store.values("a", 5, 5))
        self.assertEqual((ended.exception.status, ended.exception.place), (2, 3))

    def test_other_commands_work_within_the_with(self):
        with self.store() as store:
            store.create("a", 0, 10)
            store.append("a", [4, 7, None, 2])
            closed, session = store.session(), store.session()
            closed.close()
            pictures = [session.view("a", 50, 20, 0, 40, where="v > 1")]
            self.assertEqual(store.check()[:2], (1, 3))
            pictures.append(session.zoom(0, 20))
            values = store.values("a")
            store.append("a", [5])
            self.assertEqual(list(values), [(0, 4), (10, 7), (30, 2)])
            self.assertEqual([swept.clears for swept in store.retain("before a 10")], [1])
            pictures.append(session.pan(10))
            self.assertEqual(store.series(), [("a", 0, 10, 0, 5)])
            self.assertEqual(list(store.values("a", 10, 40)), [(10, 7), (30, 2)])
            with self.assertRaises(Ended) as met:
                store.retain("before b 10")
            self.assertEqual((met.exception.status, met.exception.place), (17, 0))
            with self.assertRaises(Refused) as refused:
                closed.view("a", 4, 4, 0, 40)
            self.assertEqual(refused.exception.number, 4)
            pictures.append(session.view("a", 50, 20))
        self.assertEqual([picture.window for picture in pictures], [(0, 40), (0, 20), (10, 30), (0, 50)])
        lines = b"open 1\nview 1 a 50 20 0 50 auto\nview 1 a 50 20 10 30 auto where v > 1\n"
        self.assertEqual(pictures[3].to_pbm() + pictures[2].to_pbm(), self.drawn(lines))

    def test_sixteen_sessions_go_on(self):
        with self.store() as store:
            store.create("a", 0, 1)
            store.append("a", [4, 7, 2])
            sessions = [store.session(cache=100 + at) for at in range(16)]
            first = [session.view("a", 9, 9) for session in sessions]
            store.check()
            self.assertEqual([session.view("a", 9, 9).to_pbm() for session in sessions], [picture.to_pbm() for picture in first])
            with self.assertRaises(Refused):
                store.session()
            sessions[3].close()
            store.check()
            store.session()

    def test_a_run_that_was_sent_much_is_begun_anew(self):
        with mock.patch("zurtkvani_client.store.MOST_SENT", 500), mock.patch("zurtkvani_client.store.BATCH", 2), self.store() as store:
            store.create("a", 0, 1)
            store.append("a", [4, 7])
            with store.session() as session:
                session.view("a", 9, 9)
                first = store.run
                store.append("a", range(3000))
                self.assertIsNot(store.run, first)
                self.assertEqual((session.zoom(0, 3002).hi, store.series()[0].slots), (2999, 3002))
        self.assertEqual(list(store.values("a", 2, 3002)), [(at + 2, at) for at in range(3000)])

    def test_where_another_run_takes_the_store_meanwhile(self):
        with self.store() as store:
            store.create("a", 0, 1)
            store.check()
            with self.store() as other:
                other.create("b", 0, 1)
                with self.assertRaises(Ended) as met:
                    store.append("a", [1])
                self.assertEqual(met.exception.status, 6)
            store.append("b", [1])
            self.assertEqual([series.slots for series in store.series()], [0, 1])

    def test_a_followed_view(self):
        with self.store() as store:
            store.create("a", 0, 1)
            store.create("b", 0, 1)
            store.append("a", [4, 7])
            pictures = store.follow("a", 20, 10, wait=0)
            self.assertEqual(next(pictures).to_pbm(), store.draw("a", 20, 10).to_pbm())
            store.append("a", range(1000))
            store.append("a", [-5])
            picture = next(pictures)
            self.assertEqual((picture.window, picture.lo, picture.hi), ((0, 1003), -5, 999))
            self.assertEqual(picture.to_pbm(), store.draw("a", 20, 10).to_pbm())
            store.retain("last a 1")
            self.assertEqual(next(pictures).hi, -5)
            store.append("b", [1])
            self.assertEqual(list(pictures), [])
            # What a followed view leaves behind is no session.
            other = store.follow("a", 20, 10, 0, 9)
            next(other)
            other.close()
            self.assertEqual(len([store.session() for _ in range(16)]), 16)

    def test_a_followed_view_waits_for_other_threads(self):
        seen = []
        with self.store() as store:
            store.create("a", 0, 1)
            store.append("a", [0])

            def look():
                for picture in store.follow("a", 20, 10):
                    seen.append((picture.window, picture.hi))

            looking = threading.Thread(target=look, daemon=True)
            looking.start()
            for value in range(1, 50):
                store.append("a", [value])
                time.sleep(0.001)
            self.assertTrue(until(lambda: seen[-1:] == [((0, 50), 49)]))
        looking.join()
        self.assertEqual(seen, sorted(set(seen)))
        self.assertTrue(all(window[1] == hi + 1 for window, hi in seen))

    def test_threads_take_turns(self):
        with self.store() as store:
            for name in "abcd":
                store.create(name, 0, 1)

            def work(name):
                for value in range(30):
                    store.append(name, [value])
                    store.draw(name, 9, 9)

            threads = [threading.Thread(target=work, args=name) for name in "abcd"]
            for thread in threads:
                thread.start()
            for _ in range(5):
                store.check()
            for thread in threads:
                thread.join()
        for name in "abcd":
            self.assertEqual([value for _, value in store.values(name)], list(range(30)))

    def derived(self, line):
        """What `derive` draws for a line."""
        done = subprocess.run([PROGRAM, self.path, "derive"], input=line.encode(), stdout=subprocess.PIPE, check=True)
        return done.stdout

    def test_sums(self):
        random = Random(5)
        numbers = {name: [random.choice([None, random.randrange(-(10**size), 10**size)]) for _ in range(500)] for name, size in (("x", 3), ("y", 12))}
        with self.store() as store:
            store.create("x", 0, 10, 1)
            store.create("y", 100, 10, 2)
            for name, values in numbers.items():
                store.append(name, values)
            pictures = [store.sum("x", "y", a, b, 60, 30) for a, b in ((1, 1), (2, -3), (-1, 0))]
            part = store.sum("x", "y", 1, -1, 60, 30, 900, 1000, range=(-5.0, 5))
        sums = [(x, y) for x, y in zip(numbers["x"][10:], numbers["y"]) if x is not None and y is not None]
        for (a, b), picture in zip(((10, 1), (20, -3), (-10, 0)), pictures):
            samples = [a * x + b * y for x, y in sums]
            self.assertEqual((picture.lo, picture.hi, picture.window), (min(samples), max(samples), (100, 5000)))
            self.assertEqual(picture.to_pbm(), self.derived(f"x y {a} {b} 60 30 100 5000 auto"))
        self.assertEqual((part.lo, part.hi), (-500, 500))
        self.assertEqual(part.to_pbm(), self.derived("x y 10 -1 60 30 900 1000 -500..500"))
        self.assertEqual([picture.series.name for picture in pictures], ["x + y", "2 x - 3 y", "- x + 0 y"])
        self.assertIn(">2 x - 3 y<", pictures[1].to_svg())

    def test_the_ends_of_sums(self):
        most = 10**18
        cases = {"a": [most, None], "b": [-most, None], "c": [most // 2, -most // 2], "d": [None, 7], "e": [3, 3], "f": [-1, 4_000]}
        with self.store() as store:
            for name, values in cases.items():
                store.create(name, 0, 1)
                store.append(name, values)
            for names, factors, ends in (
                (("a", "b"), (1, 0), (most, most)),
                (("a", "b"), (0, 1), (-most, -most)),
                (("c", "c"), (1, 1), (-most, most)),
                (("a", "b"), (1, 1), (0, 0)),
                (("a", "d"), (1, 1), (0, 0)),
                (("e", "f"), (1, 1), (2, 4_003)),
                (("e", "f"), (-1, 10**9), (-(10**9) - 3, 4 * 10**12 - 3)),
            ):
                picture = store.sum(*names, *factors, 9, 9)
                self.assertEqual((picture.lo, picture.hi), ends)

    def test_sums_that_are_refused(self):
        with self.store() as store:
            for name, start, step in (("a", 0, 10), ("b", 5, 10), ("c", 0, 5), ("d", 1000, 10)):
                store.create(name, start, step)
                store.append(name, [10**18, 1])
            for words, number in (
                (("a", "e"), 8), (("a", "b"), 23), (("a", "c"), 23), (("a", "d"), 17), (("a", "a"), 24), (("a", "a", 1, 0, 9, 5000), 18),
                (("a", "a", 1, 0, 9, 9, 5, 5), 17),
            ):
                with self.assertRaises(Refused) as met:
                    store.sum(*words)
                self.assertEqual(met.exception.number, number)
            with self.assertRaises(ValueError):
                store.sum("a", "a", 10**9 + 1)
            with self.assertRaises(TypeError):
                store.sum("a", "a", 0.5)
            self.assertEqual(store.draw("a", 9, 9).hi, 10**18)

    def test_many_values_come_back(self):
        values = [at if at % 7 else None for at in range(-8_000, 8_000)]
        with self.store() as store:
            store.create("a", 0, 1, 3)
            store.append("a", values)
        self.assertEqual(list(store.values("a")), [(at, value) for at, value in enumerate(values) if value is not None])

    def test_of_a_bulk_that_is_refused_no_value_stands_elsewhere(self):
        path = self.path + ".small"
        with Store.make(path, 2**19, program=PROGRAM) as store:
            store.create("a", 0, 1)
            with self.assertRaises(Refused) as met:
                store.append("a", range(40_000))
            self.assertEqual(met.exception.name, "Full")
        values = list(Store(path, program=PROGRAM).values("a"))
        self.assertGreater(len(values), 0)
        self.assertTrue(all(time == value for time, value in values))

    def test_a_store_is_made_once_and_counted(self):
        with self.assertRaises(FileExistsError):
            Store.make(self.path, program=PROGRAM)
        with self.assertRaises(ValueError):
            Store.make(self.path + ".b", 100, program=PROGRAM)
        with self.assertRaises(ValueError):
            Store.make(self.path + ".b", program=PROGRAM, series=[("a b", 0, 1, 0)])
        self.assertEqual(os.listdir(os.path.dirname(self.path)), ["a.store"])
        with self.store() as store:
            store.create("a", 0, 1)
            store.append("a", range(600))
        self.assertEqual(self.store().check()[:2], (1, 600))
        self.assertEqual([swept.clears for swept in self.store().retain("last a 100", "free 1")], [1, 0])
        self.assertEqual(self.store().check().values, 100)

    def test_a_second_run_over_the_store(self):
        with self.store() as store:
            store.create("a", 0, 1)
            with self.assertRaises(Ended) as met:
                with self.store() as second:
                    second.create("b", 0, 1)
            self.assertEqual((met.exception.status, met.exception.place), (6, 0))
            store.append("a", [1])

    def test_a_run_that_cannot_begin(self):
        with self.assertRaises(Ended) as met:
            with Store(self.path + ".none", program=PROGRAM) as store:
                store.create("a", 0, 1)
        self.assertEqual((met.exception.status, met.exception.place), (6, 0))

    def test_a_store_that_is_damaged(self):
        with open(self.path, "r+b") as file:
            file.seek(4096 * 66)
            file.write(b"no store")
        with self.assertRaises(Ended) as met:
            with self.store():
                pass
        self.assertEqual((met.exception.status, met.exception.place), (7, 66))

    def test_a_run_that_is_killed(self):
        with self.store() as store:
            store.create("a", 0, 1)
            os.kill(store.run.child.pid, signal.SIGKILL)
            for _ in range(2):
                with self.assertRaises(Ended) as met:
                    store.append("a", [1])
                self.assertEqual((met.exception.status, met.exception.place), (-signal.SIGKILL, None))
        with self.store() as store:
            with self.assertRaises(Refused):
                store.create("a", 0, 1)

    def test_nothing_is_answered_outside(self):
        store = self.store()
        with self.assertRaises(ValueError):
            store.create("a", 0, 1)
        with store:
            store.create("a", 0, 1)
        with self.assertRaises(Ended) as met:
            store.append("a", [1])
        self.assertEqual(met.exception.status, 0)
        self.assertIsNotNone(store.run.child.returncode)


if __name__ == "__main__":
    unittest.main()
