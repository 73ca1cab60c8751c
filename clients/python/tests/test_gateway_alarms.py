"""Alarms of a gateway: what begins and ends them, that each is told once, also behind kills, and what a command is given."""
import asyncio
import http.client
import http.server
import json
import os
import random
import tempfile
import threading
import time
import types
import unittest
import unittest.mock
from decimal import Decimal

from gateway_server import SECOND, Gateway, T, require_all
from waiting import SECONDS, until

require_all()

from zurtkvani_client.gateway import alarms, configuration  # noqa: E402
from zurtkvani_client.store import Series  # noqa: E402

FOREVER = 'oldest = "36500d"\nevery = "50ms"'
LOG = """#!/bin/sh
cat >> "$1"
echo "$#" >> "$1.words"
"""


def watch_of(scale=2, **given):
    """A watch of a rule over a series with a slot each second."""
    text = '[[alarm]]\nname = "a"\n' + "".join(f"{key} = {value}\n" for key, value in given.items())
    with tempfile.NamedTemporaryFile("w", suffix=".toml") as file:
        file.write(text)
        file.flush()
        (rule,) = configuration.read(file.name).alarm
    known = types.SimpleNamespace(key=(("__name__", "x"),), labels={"__name__": "x"}, first=0, gap=10**9, slots=0, record=Series("x", 0, 1, scale, 0))
    return alarms.Watch(rule, known, None)


def changes(watch, values):
    """The slots at which an alarm begins and ends, of values by their slots."""
    return [(change.slot, change.state) for change in watch.look(sorted(values), values)]


class Watches(unittest.TestCase):
    def test_limits_are_exact_decimals(self):
        watch = watch_of(over="0.3", scale=1)
        self.assertEqual(changes(watch, {0: 3, 1: 4, 2: 3}), [(1, "begin"), (2, "end")])
        self.assertEqual(changes(watch_of(over="0.299999999999999999999", scale=1), {0: 3}), [(0, "begin")])
        self.assertEqual(changes(watch_of(under="0.30000000000000000001", scale=1), {0: 3, 1: 4}), [(0, "begin"), (1, "end")])
        self.assertEqual(changes(watch_of(under="0.3", scale=1), {0: 3, 1: 2, 2: 3}), [(1, "begin"), (2, "end")])
        self.assertEqual(changes(watch_of(over='"999999999999999999.9"', scale=0), {0: 10**18 - 1, 1: 10**18}), [(1, "begin")])

    def test_it_ends_by_the_limit_back(self):
        watch = watch_of(over="90", ends="85", scale=0)
        self.assertEqual(changes(watch, dict(enumerate([91, 89, 86, 85, 88, 91]))), [(0, "begin"), (3, "end"), (5, "begin")])
        watch = watch_of(under="10", ends="12.5", scale=1)
        self.assertEqual(changes(watch, dict(enumerate([99, 101, 124, 125]))), [(0, "begin"), (3, "end")])

    def test_it_has_to_last(self):
        watch = watch_of(over="1", lasts='"3s"', scale=0)
        self.assertEqual(changes(watch, dict(enumerate([2, 2, 2, 1, 2, 2, 2, 2, 2, 1]))), [(7, "begin"), (9, "end")])
        self.assertEqual(changes(watch, {20: 2, 30: 2}), [(30, "begin")])

    def test_what_comes_behind_a_later_slot_is_passed_over(self):
        watch = watch_of(over="1", scale=0)
        self.assertEqual(changes(watch, {5: 0}), [])
        self.assertEqual(changes(watch, {4: 9}), [])
        self.assertEqual(changes(watch, {5: 9}), [(5, "begin")])

    def test_rates_against_a_plain_model(self):
        draw = random.Random(3)
        for _ in range(60):
            span, limit = draw.randrange(1, 9), draw.randrange(0, 40)
            watch = watch_of(rate=str(limit), within=f'"{span}s"', scale=0)
            stored, begun, slot = {}, False, 0
            for _ in range(80):
                slot += draw.choice((0, 1, 1, 1, 2, 7))
                stored[slot] = draw.randrange(-30, 30)
                window = [value for at, value in stored.items() if slot - span <= at <= slot]
                expected = [] if (max(window) - min(window) > limit) == begun else [(slot, "end" if begun else "begin")]
                self.assertEqual(changes(watch, {slot: stored[slot]}), expected, (span, limit, stored))
                begun ^= bool(expected)

    def test_what_is_wrong_with_an_alarm_is_named_with_its_line(self):
        for text, line, words in (
            ('match = "a"\nover = 1', 2, "name"), ('name = "a"', 2, "has 0"), ('name = "a"\nover = 1\nunder = 2', 5, "has 2"),
            ('name = "a"\nover = true', 4, "number"), ('name = "a"\nover = "1e400"', 4, "10^18"), ('name = "a"\nover = nan', 4, "no value"),
            ('name = "a"\nover = 1\nends = 2', 5, "below over"), ('name = "a"\nunder = 1\nends = 0.5', 5, "above under"),
            ('name = "a"\nrate = -1', 4, "0 at least"), ('name = "a"\nstale = "1h"\nlasts = "1s"', 5, "stale"),
            ('name = "a"\nover = 1\ncommand = ["page"]', 5, "whole path"), ('name = "a"\nover = 1\npost = "ftp://x"', 5, "HTTP"),
            ('name = "a"\nover = 1\nbeyond = 1', 5, "beyond"), ('name = "a"\nover = 1\n[[alarm]]\nname = "a"\nover = 1', 6, "of its own"),
        ):
            with self.subTest(text), tempfile.NamedTemporaryFile("w", suffix=".toml") as file:
                file.write("# \n[[alarm]]\n" + text + "\n")
                file.flush()
                with self.assertRaises(configuration.Wrong) as caught:
                    configuration.read(file.name)
                self.assertIn(f"line {line}:", str(caught.exception))
                self.assertIn(words, str(caught.exception))


class Kept(unittest.IsolatedAsyncioTestCase):
    async def test_the_file_is_written_by_one_at_a_time(self):
        given = types.SimpleNamespace(alarms=None, alarm=[], read=None, stores=types.SimpleNamespace(folder="/nowhere"))
        kept = alarms.Alarms(given, None, None, None)
        done, begun, may_end = [], threading.Event(), threading.Event()

        def replace(*_):
            done.append("begin")
            begun.set()
            may_end.wait(SECONDS)
            done.append("end")

        with unittest.mock.patch.object(alarms, "replace", replace):
            first = asyncio.create_task(kept._keep())
            await asyncio.to_thread(begun.wait, SECONDS)
            # Who waits for it is broken off, and it goes on all the same.
            first.cancel()
            second = asyncio.create_task(kept._keep())
            await asyncio.sleep(0.1)
            may_end.set()
            await second
        self.assertEqual(done, ["begin", "end"] * 2)


class Told(unittest.TestCase):
    def setUp(self):
        folder = tempfile.TemporaryDirectory()
        self.addCleanup(folder.cleanup)
        self.folder = folder.name
        self.command = os.path.join(self.folder, "page")
        with open(self.command, "w") as file:
            file.write(LOG)
        os.chmod(self.command, 0o755)
        self.log = os.path.join(self.folder, "told")

    def over(self, rules, sections=None):
        gateway = Gateway(self.folder, sections or {"alarms": FOREVER}, SECOND + "".join(f"[[alarm]]\n{rule}\n" for rule in rules))
        self.addCleanup(gateway.close)
        return gateway.start()

    def by_command(self, rule):
        return f"{rule}\ncommand = [{json.dumps(self.command)}, {json.dumps(self.log)}]"

    def told(self):
        try:
            with open(self.log, encoding="utf-8") as file:
                return [json.loads(line) for line in file if line.endswith("\n")]
        except FileNotFoundError:
            return []

    def wait_for(self, gateway, count):
        """What was told, once it is so much and nothing waits to be told: a write that was answered has set off all that it does."""
        self.assertTrue(until(lambda: len(self.told()) >= count and self.listed(gateway)["untold"] == 0))
        return self.told()

    def write(self, gateway, lines):
        self.assertEqual(gateway.write(lines), (204, ""))

    def listed(self, gateway):
        status, text, _ = gateway.ask("/alarms")
        self.assertEqual(status, 200)
        return json.loads(text)

    def test_an_alarm_is_told_once_and_listed_until_it_ends(self):
        gateway = self.over([self.by_command('name = "hot"\nmatch = "boiler_*"\nover = 90.5\nends = 85')])
        self.write(gateway, f'boiler,room=$(touch\\ x)`;\' temp=90.5 {T}\nother temp=99 {T}')
        self.write(gateway, f'boiler,room=$(touch\\ x)`;\' temp=90.51 {T + 1}')
        self.write(gateway, f'boiler,room=$(touch\\ x)`;\' temp=95 {T + 2}')
        (active,) = self.listed(gateway)["alarms"]
        self.assertEqual((active["alarm"], active["kind"], active["limit"], active["value"]), ("hot", "over", "90.5", "90.51"))
        self.assertEqual(active["labels"], {"__name__": "boiler_temp", "room": "$(touch x)`;'"})
        self.assertEqual(active["begun"], "2023-11-14T22:13:21Z")
        self.write(gateway, f'boiler,room=$(touch\\ x)`;\' temp=85 {T + 3}')
        first, last = self.wait_for(gateway, 2)
        self.assertEqual((first["state"], first["value"], first["time"]), ("begin", "90.51", "2023-11-14T22:13:21Z"))
        self.assertEqual((last["state"], last["value"], last["time"]), ("end", "85.00", "2023-11-14T22:13:23Z"))
        self.assertEqual(self.listed(gateway), {"alarms": [], "untold": 0})
        with open(self.log + ".words") as file:
            self.assertEqual(file.read().split(), ["1", "1"])
        metrics = gateway.metrics()
        self.assertEqual(metrics['zurtkvani_gateway_alarms_total{alarm="hot",state="begin"}'], 1)

    def test_old_values_set_off_nothing(self):
        gateway = self.over(['name = "hot"\nover = 1'], {"alarms": 'oldest = "1h"'})
        self.write(gateway, f"w v=9 {T}")
        self.assertEqual(self.listed(gateway)["alarms"], [])
        self.write(gateway, f"w v=9 {int(time.time())}")
        self.assertEqual(len(self.listed(gateway)["alarms"]), 1)

    def test_what_is_stale(self):
        gateway = self.over([self.by_command('name = "silent"\nstale = "6s"')])
        at = int(time.time())
        self.write(gateway, f"w v=9 {at}")
        self.assertTrue(until(lambda: self.listed(gateway)["alarms"]))
        self.assertGreater(time.time(), at + 6)
        (begin,) = self.wait_for(gateway, 1)
        self.assertEqual((begin["state"], begin["kind"], begin["value"]), ("begin", "stale", None))
        self.write(gateway, f"w v=9 {int(time.time()) + 3600}")
        self.assertEqual([one["state"] for one in self.wait_for(gateway, 2)], ["begin", "end"])
        self.assertEqual(self.listed(gateway)["alarms"], [])

    def test_a_restart_tells_nothing_again(self):
        gateway = self.over([self.by_command('name = "hot"\nover = 1'), self.by_command('name = "wild"\nrate = 5\nwithin = "100s"')])
        self.write(gateway, f"w v=0 {T}\nw v=9 {T + 1}")
        self.assertEqual(len(self.wait_for(gateway, 2)), 2)
        for end in (gateway.stop, gateway.kill):
            end()
            gateway.start()
            self.assertEqual(len(self.listed(gateway)["alarms"]), 2)
            self.write(gateway, f"w v=0 {T}\nw v=9 {T + 1}")
            self.write(gateway, f"w v=9 {T + 2}")
        self.assertEqual(len(self.wait_for(gateway, 2)), 2)
        self.write(gateway, f"w v=1 {T + 3}")
        self.assertEqual([(one["alarm"], one["state"]) for one in self.wait_for(gateway, 3)[2:]], [("hot", "end")])
        self.write(gateway, f"w v=1 {T + 200}")
        self.assertEqual([(one["alarm"], one["state"]) for one in self.wait_for(gateway, 4)[3:]], [("wild", "end")])

    def test_what_isnt_told_is_told_behind_a_restart(self):
        os.chmod(self.command, 0o644)
        gateway = self.over([self.by_command('name = "hot"\nover = 1')])
        self.write(gateway, f"w v=0 {T}\nw v=9 {T + 1}\nw v=1 {T + 2}\nw v=2 {T + 3}")
        self.assertEqual(self.listed(gateway)["untold"], 3)
        gateway.kill()
        os.chmod(self.command, 0o755)
        gateway.start()
        self.assertEqual([one["state"] for one in self.wait_for(gateway, 3)], ["begin", "end", "begin"])

    def test_kills_under_load_lose_no_alarm(self):
        gateway = self.over([self.by_command('name = "hot"\nover = 1')])
        draw, at = random.Random(1), 0
        for kill in range(6):
            ends = time.monotonic() + 0.2 + 0.3 * draw.random()
            killer = threading.Timer(ends - time.monotonic(), gateway.kill)
            killer.start()
            while killer.is_alive():
                # A value above, and one that isn't, until the gateway answers for both; not so many that some are given up.
                time.sleep(0.01)
                lines = f"w v=9 {T + at}\nw v=1 {T + at + 1}"
                while True:
                    try:
                        if gateway.write(lines)[0] == 204:
                            break
                    except (OSError, http.client.HTTPException):
                        killer.join()
                        gateway.start()
                at += 2
            if gateway.process.poll() is not None:
                gateway.start()
        states = [(one["time"], one["state"]) for one in self.wait_for(gateway, at)]
        self.assertEqual(len(set(states)), at)
        # One that was told just before a kill may be told again.
        self.assertLessEqual(len(states) - at, 6)

    def test_a_post_is_tried_until_it_is_taken(self):
        taken = []

        class Handler(http.server.BaseHTTPRequestHandler):
            def do_POST(self):
                taken.append(json.loads(self.rfile.read(int(self.headers["Content-Length"]))))
                self.send_response(500 if len(taken) == 1 else 200)
                self.end_headers()

            def log_message(self, *_words):
                pass

        server = http.server.HTTPServer(("127.0.0.1", 0), Handler)
        self.addCleanup(server.server_close)
        threading.Thread(target=server.serve_forever, daemon=True).start()
        self.addCleanup(server.shutdown)
        gateway = self.over([f'name = "hot"\nunder = 1\npost = "http://127.0.0.1:{server.server_address[1]}/a"'])
        self.write(gateway, f"w v=0 {T}\nw v=1 {T + 1}")
        self.assertTrue(until(lambda: len(taken) >= 3 and self.listed(gateway)["untold"] == 0))
        self.assertEqual([one["state"] for one in taken], ["begin", "begin", "end"])

    def test_a_command_that_hangs_holds_no_write_up_and_is_given_up(self):
        with open(self.command, "w") as file:
            file.write(f"#!/bin/sh\nsleep {9 * SECONDS}\n")
        gateway = self.over([self.by_command('name = "hot"\nover = 1')], {"alarms": FOREVER + '\nseconds = "0.2s"\ngive_up = "0.5s"'})
        begun = time.monotonic()
        self.write(gateway, f"w v=9 {T}")
        self.assertLess(time.monotonic() - begun, SECONDS)
        self.assertTrue(until(lambda: self.listed(gateway)["untold"] == 0))
        self.assertEqual(gateway.metrics()['zurtkvani_gateway_untold_alarms_total{alarm="hot"}'], 1)

    def test_a_damaged_file_is_set_aside(self):
        gateway = self.over(['name = "hot"\nover = 1'])
        self.write(gateway, f"w v=9 {T}")
        gateway.stop()
        path = os.path.join(gateway.stores, "alarms.json")
        with open(path, "w") as file:
            file.write('{"version": 1')
        gateway.start()
        self.assertTrue(os.path.exists(path + ".damaged"))
        self.assertEqual(gateway.write(f"w v=9 {T + 1}")[0], 204)
        self.assertEqual(len(self.listed(gateway)["alarms"]), 1)


if __name__ == "__main__":
    unittest.main()
