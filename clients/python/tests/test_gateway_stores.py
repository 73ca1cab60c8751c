"""The stores of a gateway: retention, backups, further ones, and those that can't be worked on."""
import contextlib
import fcntl
import io
import json
import os
import signal
import tempfile
import threading
import time
import unittest

from gateway_server import PROGRAM, SECOND, Gateway, OverAGateway, T, require_all
from waiting import until

require_all()

from zurtkvani_client import Store  # noqa: E402
from zurtkvani_client.gateway import backup  # noqa: E402


class Kept(OverAGateway):
    SECTIONS = {"retain": 'every = "1s"\nquiet = "0.2s"'}
    SERIES = '[[series]]\nmatch = "old*"\nstep = "1s"\nscale = 0\nkeep = "1h"\nbefore = "400d"\n' + SECOND

    def test_old_values_are_dropped(self):
        now = int(time.time())
        times = [now - 90 * 86_400, now - 9000, now - 5000, now - 100, now]
        self.require_written("\n".join(f"{name} v=1 {at}" for name in ("old", "new") for at in times))
        self.assertTrue(until(lambda: len(self.values("old_v[400d]", now + 1)['{"__name__": "old_v"}']) == 2))
        self.require_written(f"old v=2 {now + 1}")
        self.assertEqual(self.gateway.stop(), 0)
        self.assertEqual(sorted(self.gateway.exported("old_v")), [now - 100, now, now + 1])
        self.assertEqual(sorted(self.gateway.exported("new_v")), times)


class Backups(OverAGateway):
    def made(self, folder):
        self.backups = os.path.join(folder, "backups")
        self.SECTIONS = {"backup": f"folder = {json.dumps(self.backups)}"}
        return super().made(folder)

    def test_a_backup_opens_checks_and_equals(self):
        self.require_written("\n".join(f"w,n={at % 3} v={at} {T + at}" for at in range(3000)))
        with contextlib.redirect_stdout(io.StringIO()) as told:
            self.assertEqual(backup.main(self.gateway.path, ""), 0)
        self.assertIn("gateway.store", told.getvalue())
        self.require_written(f"w,n=0 v=1 {T + 5000}")
        metrics = self.gateway.metrics()
        (name,) = os.listdir(self.backups)
        copy = os.path.join(self.backups, name)
        self.assertEqual(sorted(os.listdir(copy)), ["gateway.store", "names.json"])
        self.assertEqual(Store(os.path.join(copy, "gateway.store"), program=PROGRAM).check().values, 3000)
        self.assertEqual(self.gateway.stop(), 0)
        checked = Store(os.path.join(self.gateway.stores, "gateway.store"), program=PROGRAM).check()
        self.assertEqual(checked.values, 3001)
        told = [metrics[f'zurtkvani_gateway_store_pages_{of}{{store="gateway.store"}}'] for of in ("used", "left")]
        self.assertEqual(told, [checked.used, checked.pages - checked.used])


    def test_a_backup_under_load_has_what_was_answered_before(self):
        answered, sent, ends = [], [], threading.Event()

        def write():
            while not ends.wait(0.005):
                part = list(range(len(sent), len(sent) + 50))
                sent.extend(part)
                if self.gateway.write("\n".join(f"w,n={at % 7} v={at} {T + at}" for at in part))[0] == 204:
                    answered.extend(part)

        writer = threading.Thread(target=write, daemon=True)
        self.addCleanup(ends.set)
        writer.start()
        self.assertTrue(until(lambda: answered))
        bounds = []
        for _ in range(3):
            before = list(answered)
            self.assertEqual(self.gateway.ask("/backup", b"")[0], 200)
            bounds.append((before, len(sent)))
            time.sleep(1.1)  # a backup is called by its second
        ends.set()
        writer.join()
        for name, (before, behind) in zip(sorted(os.listdir(self.backups)), bounds):
            path = os.path.join(self.backups, name)
            copied = Store(os.path.join(path, "gateway.store"), program=PROGRAM)
            values = {int(number) // 100 for series in copied.series() for _, number in copied.values(series.name)}
            self.assertEqual(copied.check().values, len(values))
            self.assertGreaterEqual(values, set(before))
            self.assertLessEqual(values, set(range(behind + 50)))


class Growing(unittest.TestCase):
    def test_further_stores_are_made_up_to_a_limit(self):
        with tempfile.TemporaryDirectory() as folder:
            gateway = Gateway(folder, {"stores": "most = 2"}, SECOND).start()
            try:
                self.assertEqual(gateway.write("\n".join(f"w,n={at} v={at} {T}" for at in range(700)))[0], 204)
                self.assertEqual(gateway.write("\n".join(f"w,n={at} v={at} {T}" for at in range(700, 1200)))[0], 503)
                self.assertEqual(gateway.write(f"w,n=0 v=5 {T}")[0], 204)
                metrics = gateway.metrics()
                self.assertEqual(metrics['zurtkvani_gateway_series{store="gateway-2.store"}'], 512)
                self.assertEqual(metrics["zurtkvani_gateway_made_series_total"], 1024)
                self.assertEqual(gateway.stop(), 0)
                gateway.start()
                self.assertEqual(gateway.told_of("query", query='w_v{n="699"}', time=T)["result"][0]["value"], [T, "699"])
            finally:
                gateway.close()

    def test_series_are_spread_over_the_stores_that_are_named(self):
        with tempfile.TemporaryDirectory() as folder:
            gateway = Gateway(folder, {"stores": 'files = ["a.store", "b.store", "c.store"]'}, SECOND).start()
            try:
                self.assertEqual(gateway.write("\n".join(f"w,n={at} v={at} {T}" for at in range(31)))[0], 204)
                self.assertEqual(gateway.write("\n".join(f"w,n={at} v={at} {T + 1}" for at in range(60)))[0], 204)
                # A run that is lost in the middle of that.
                child = gateway.children()[0]
                os.kill(child, signal.SIGSTOP)
                killing = threading.Timer(0.5, os.kill, (child, signal.SIGKILL))
                killing.start()
                self.assertEqual(gateway.write("\n".join(f"w,n={at} v={at} {T + 2}" for at in range(90)))[0], 204)
                killing.join()
                metrics = gateway.metrics()
                counts = [metrics[f'zurtkvani_gateway_series{{store="{name}.store"}}'] for name in "abc"]
                self.assertEqual(sum(counts), 90)
                self.assertLessEqual(max(counts) - min(counts), 3)
                self.assertEqual(len(gateway.told_of("query", query="w_v", time=T + 2)["result"]), 90)
                self.assertEqual(gateway.stop(), 0)
                listed = [name for store in "abc" for name in gateway.listed(f"{store}.store")]
                self.assertEqual((len(listed), len(set(listed))), (90, 90))
            finally:
                gateway.close()

    def test_a_series_is_made_though_the_run_ends_meanwhile(self):
        with tempfile.TemporaryDirectory() as folder:
            gateway = Gateway(folder, {}, SECOND).start()
            try:
                self.assertEqual(gateway.write(f"w v=1 {T}")[0], 204)
                (child,) = gateway.children()
                os.kill(child, signal.SIGSTOP)
                answers = []
                writing = threading.Thread(target=lambda: answers.append(gateway.write(f"fresh v=1 {T}")))
                writing.start()
                time.sleep(0.5)
                os.kill(child, signal.SIGKILL)
                writing.join()
                self.assertEqual(answers, [(204, "")])
                self.assertEqual(gateway.stop(), 0)
                self.assertEqual(gateway.exported("fresh_v"), {T: "1.00"})
            finally:
                gateway.close()

    def test_a_full_store_is_told_and_takes_no_series(self):
        with tempfile.TemporaryDirectory() as folder:
            gateway = Gateway(folder, {"stores": "most = 1"}, SECOND, size="512K").start()
            try:
                lines = "\n".join(f"w v={at % 10} {T + at * 200}" for at in range(200))
                self.assertEqual(gateway.write(lines)[0], 503)
                self.assertEqual(gateway.ask("/healthz")[0], 503)
                self.assertIn(b"full", gateway.ask("/healthz")[1])
            finally:
                gateway.close()


def script(folder, lines):
    """A program that does these lines of a shell, in which PROGRAM is the chart program."""
    path = os.path.join(folder, "program")
    with open(path, "w") as file:
        file.write("#!/bin/sh\n" + lines.replace("PROGRAM", PROGRAM) + "\n")
    os.chmod(path, 0o755)
    return path


class Broken(unittest.TestCase):
    def test_a_damaged_store_is_told_and_not_tried_again(self):
        with tempfile.TemporaryDirectory() as folder:
            gateway = Gateway(folder, {}, SECOND).start()
            try:
                self.assertEqual(gateway.write(f"w v=1 {T}")[0], 204)
                self.assertEqual(gateway.stop(), 0)
                path = os.path.join(gateway.stores, "gateway.store")
                with open(path, "r+b") as file:
                    file.seek(66 * 4096)
                    file.write(b"x" * 8)
                gateway.start()
                status, text, _ = gateway.ask("/healthz")
                self.assertEqual(status, 503)
                self.assertIn(b"status 7 at 66", text)
                self.assertEqual(gateway.write(f"w v=1 {T}")[0], 503)
                self.assertEqual(sum(event["event"] == "a run ended" for event in gateway.events()), 1)
                self.assertEqual(gateway.stop(), 0)
            finally:
                gateway.close()

    def test_a_file_that_is_too_small_is_told_and_not_tried_again(self):
        with tempfile.TemporaryDirectory() as folder:
            gateway = Gateway(folder, {}, SECOND)
            os.mkdir(gateway.stores)
            with open(os.path.join(gateway.stores, "gateway.store"), "wb") as file:
                file.truncate(100 * 4096)
            try:
                gateway.start()
                self.assertIn(b"status 12", gateway.ask("/healthz")[1])
                self.assertEqual(gateway.write(f"w v=1 {T}")[0], 503)
                self.assertEqual(len(gateway.events("a run ended")), 1)
                self.assertEqual(gateway.stop(), 0)
            finally:
                gateway.close()

    def test_a_write_that_the_system_refuses_loses_nothing_that_was_answered(self):
        with tempfile.TemporaryDirectory() as folder:
            # as ./chart does, so that it is a write that fails, and no signal
            gateway = Gateway(folder, {}, SECOND, program=script(folder, "trap '' XFSZ\nexec PROGRAM \"$@\"")).start()
            try:
                self.assertEqual(gateway.stop(), 0)
                gateway.start(most_bytes=2**20)
                answered, status = {}, 204
                for at in range(100):
                    times = range(T + 2000 * at, T + 2000 * at + 2000)
                    status, text = gateway.write("\n".join(f"w v=1 {time_of}" for time_of in times))
                    if status != 204:
                        break
                    answered.update(dict.fromkeys(times, "1.00"))
                self.assertEqual(status, 503, text)
                self.assertIn(b"status 6", gateway.ask("/healthz")[1])
                self.assertEqual(sum(event["event"] == "a run ended" for event in gateway.events()), 1)
                gateway.stop()
                gateway.start()
                self.assertEqual(gateway.write(f"w v=1 {T + 10**6}")[0], 204)
                self.assertEqual(gateway.stop(), 0)
                self.assertGreater(len(answered), 2000)
                self.assertLessEqual(answered.items(), gateway.exported("w_v").items())
            finally:
                gateway.close()

    def test_a_store_that_another_run_holds_is_waited_for(self):
        with tempfile.TemporaryDirectory() as folder:
            runs = os.path.join(folder, "runs")
            gateway = Gateway(folder, {}, SECOND, program=script(folder, f'echo "$2" >> {runs}\nexec PROGRAM "$@"')).start()
            try:
                self.assertEqual(gateway.write(f"w v=1 {T}")[0], 204)
                self.assertEqual(gateway.stop(), 0)
                with open(os.path.join(gateway.stores, "gateway.store"), "rb") as store, open(runs) as told:
                    fcntl.flock(store, fcntl.LOCK_EX)
                    before = told.read()
                    starting = threading.Thread(target=gateway.start)
                    starting.start()
                    self.assertTrue(until(lambda: gateway.process.poll() is None and gateway.events("a run ended")))
                    told.seek(0)
                    self.assertEqual(told.read(), before, "no run is started beside another one")
                starting.join()
                self.assertEqual(gateway.write(f"w v=2 {T + 1}")[0], 204)
                self.assertEqual(gateway.stop(), 0)
                self.assertEqual(gateway.exported("w_v"), {T: "1.00", T + 1: "2.00"})
            finally:
                gateway.close()

    def test_a_run_that_ends_at_once_isnt_started_for_ever(self):
        with tempfile.TemporaryDirectory() as folder:
            gateway = Gateway(folder, {}, SECOND, program=script(folder, '[ "$2" != host ] || exit 3\nexec PROGRAM "$@"')).start()
            try:
                self.assertIn(b"ended at once", gateway.ask("/healthz")[1])
                self.assertEqual(gateway.write(f"w v=1 {T}")[0], 503)
                self.assertEqual(sum(event["event"] == "a run ended" for event in gateway.events()), 6)
                self.assertEqual(gateway.stop(), 0)
            finally:
                gateway.close()

    def test_a_wrong_start_says_why(self):
        with tempfile.TemporaryDirectory() as folder:
            gateway = Gateway(folder, {}, "[[series]]\nsteps = 1\n")
            with self.assertRaisesRegex(AssertionError, "line .*no key 'steps'"):
                gateway.start()
            self.assertEqual(gateway.process.wait(), 2)
            gateway.close()
            gateway = Gateway(folder, {}, SECOND, program="/nonexistent/chart")
            with self.assertRaisesRegex(AssertionError, "nonexistent"):
                gateway.start()
            self.assertEqual(gateway.process.wait(), 1)
            gateway.close()


if __name__ == "__main__":
    unittest.main()
