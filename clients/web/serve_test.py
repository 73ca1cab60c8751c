#!/usr/bin/env python3
"""Probes of serve.py, over the built program of dist/ or another: CHART_PROGRAM=PROGRAM python3 clients/web/serve_test.py

What stands here needs no browser: sessions of pages that are gone, too many connections and half requests, the token and who may ask,
what comes of a wrong store or port, and edits from standard input.
"""
import base64
import contextlib
import json
import os
import re
import shutil
import socket
import subprocess
import sys
import tempfile
import threading
import time
import unittest
import urllib.parse

sys.dont_write_bytecode = True
from serve_probe import PROGRAM, ROOT, SECONDS, Page, Served, made_store, read_until, run_served, until

sys.path.insert(0, os.path.join(ROOT, "clients/python"))

from page_server.changes import Changes  # noqa: E402
from page_server.handler import PUSHED  # noqa: E402
from page_server.sessions import Sessions  # noqa: E402
from zurtkvani_client import page_rules  # noqa: E402

DONE, REFUSED, OPENED, CLOSED, VIEW, ROWS, LIVE, CATALOG, VALUES, SWEPT = range(1, 11)


class Answers(Page):
    def test_lines_are_answered_in_order(self):
        self.assertEqual(self.served.kinds(b"open 1", b"view 1 a 4 4 0 4 auto", b"close 1"), [OPENED, VIEW, CLOSED])

    def test_a_sum_is_answered_and_leaves_what_the_session_was_answered(self):
        self.served.request(b"create b 0 1 1", b"append b 1 1 1", b"create c 1 2 1")
        self.served.ask("POST", "/catalog")
        self.assertEqual(self.served.headers[page_rules.OFFERS], "sum follow socket")
        sum_of = b"sum 1 a %s 1 -1 4 4 0 4 auto"
        self.assertEqual(self.served.kinds(b"open 1", sum_of % b"b", b"zoom 1 0 2"), [OPENED, ROWS, -16])
        self.assertEqual(self.served.kinds(b"view 1 a 4 4 0 4 auto", sum_of % b"b", b"zoom 1 0 2"), [VIEW, ROWS, VIEW])
        lines = sum_of % b"c", sum_of % b"none", b"sum 1 a b 1 1 4 4 4 4 auto", b"sum 1 a b 1 1 0 4 0 4 auto", b"sum 2 a b 1 1 4 4 0 4 auto"
        self.assertEqual(self.served.kinds(*lines), [-23, -8, -17, -18, -4])

    def test_a_sum_counts_as_a_request_of_its_session(self):
        self.assertEqual(page_rules.number_in(b"sum 7 a b 1 1 4 4 0 4 auto"), b"7")

    def test_reports_are_answered(self):
        self.assertEqual(self.served.kinds(b"list", b"values a 0 4", b"sweep last a 2"), [CATALOG, VALUES, SWEPT])

    def test_a_page_is_told_what_a_sweep_changed(self):
        self.served.request(b"create b 0 1 1", b"open 1")
        with self.served.events(1) as stream:
            read_until(stream, b": here")
            self.served.request(b"sweep last a 9")  # clears nothing
            self.served.request(b"sweep last a 1")
            told = read_until(stream, b"}]\n\n")
            self.assertEqual(told[told.index(b"event:") :], b'event: changed\ndata: [{"name": "a", "start": "0", "step": 1, "scale": 1, "slots": 3}]\n\n')

    def test_a_page_is_pushed_what_changes_of_the_view_that_it_follows(self):
        self.served.request(b"create b 0 1 1")
        self.assertEqual(self.served.kinds(b"open 1", b"view 1 a 4 4 0 4 auto", b"follow 1"), [OPENED, VIEW, LIVE])
        with self.served.events(1) as stream:
            read_until(stream, b": here")
            self.assertEqual(self.served.kinds(b"set a 0 9", b"append b 5", b"append a 7", b"sweep last a 1"), [DONE, DONE, DONE, SWEPT])
            told = b""
            while told.count(b"event: pushed") < 3 or not told.endswith(b"}]\n\n"):
                told += read_until(stream, b"\n\n")
        frames = [base64.b64decode(data) for data in re.findall(rb'event: pushed\ndata: "(.*)"\n', told)]
        self.assertEqual([(frame[4], frame[5:9]) for frame in frames], [(VIEW, b"\0\0\0\1")] * 3)
        self.assertLess(told.index(b"event: pushed"), told.index(b"event: changed"))
        self.assertEqual(self.served.kinds(b"zoom 1 0 4", b"unfollow 1", b"set a 0 3"), [VIEW, LIVE, DONE])
        self.served.request(b"zoom 1 0 4")
        self.assertEqual(self.served.headers[PUSHED], "3")

    def test_a_close_that_is_refused_closes_nothing(self):
        self.served.request(b"open 1")
        self.assertEqual(self.served.request(b"close 1 now")[1][4], REFUSED)
        with self.served.events(1) as stream:
            self.assertIn(b": here", read_until(stream, b": here"))

    def test_the_catalog_follows_edits(self):
        self.assertEqual(self.served.request(b"create b -5 60 2", b"append a 9")[0], 200)
        status, data = self.served.ask("POST", "/catalog")
        wanted = [{"name": "a", "start": "0", "step": 1, "scale": 1, "slots": 4}, {"name": "b", "start": "-5", "step": 60, "scale": 2, "slots": 0}]
        self.assertEqual((status, json.loads(data)), (200, wanted))

    def test_a_page_is_told_what_changed(self):
        self.served.request(b"open 1")
        with self.served.events(1) as stream:
            read_until(stream, b": here")
            self.served.request(b"append a 9")
            told = read_until(stream, b"}]\n\n")
            self.assertIn(b'event: changed\ndata: [{"name": "a", "start": "0", "step": 1, "scale": 1, "slots": 4}]\n\n', told)

    def test_a_page_is_told_what_changed_before_its_stream_stood(self):
        self.served.request(b"open 1")
        self.served.request(b"append a 9")
        with self.served.events(1) as stream:
            self.assertIn(b'[{"name": "a", "start": "0", "step": 1, "scale": 1, "slots": 4}]', read_until(stream, b"}]\n\n"))

    def test_what_no_page_of_this_server_sends_is_refused(self):
        edit = b"append a 9"
        cases = [
            (403, {"Origin": "http://127.0.0.1:1"}), (403, {"Origin": "null"}), (403, {"X_Chart_Token": self.served.token[:-1] + "!"}),
            (403, {"X_Chart_Token": None}), (403, {"Host": "example.org"}), (403, {"Host": [self.served.place, "example.org"]}),
            (403, {"Host": None}), (400, {"Content_Length": ["10", "10"]}), (400, {"Content_Length": None, "Transfer_Encoding": "chunked"}),
            (400, {"Content_Length": "99999"}), (400, {"Content_Length": "-1"}),
        ]  # fmt: skip
        for wanted, headers in cases:
            self.assertEqual(self.served.ask("POST", "/request", edit, **headers)[0], wanted, headers)
        for lines in ([b""], [b"\r"], [b"open 1", b""], [b"open 1" + b" " * 8187], [b"open 1"] * 65):
            self.assertEqual(self.served.request(*lines)[0], 400, lines[0][:20])
        for path in ("/../serve.py", "/%2e%2e/web/serve.py", "/serve.py", "/page/../serve.py", "/page_server/handler.py", "/page/main.py", "/page/"):
            self.assertEqual(self.served.ask("GET", path)[0], 404, path)
        status, data = self.served.ask("POST", "/catalog")
        self.assertEqual((status, json.loads(data)[0]["slots"]), (200, 3))

    def test_the_longest_line_reaches_the_program(self):
        status, data = self.served.request(b"open 1" + b" " * 8186)
        self.assertEqual((status, data[4:6]), (200, bytes((REFUSED, 2))))

    def test_the_page_has_its_files(self):
        for path in ("/", "/page.css", "/panels.css", "/page/main.js", "/chart_client.js", "/client/views.js", "/proved_client.js", "/refusals.js", "/chart_client.wasm"):
            self.assertEqual(self.served.ask("GET", path)[0], 200, path)

    def test_each_answer_says_that_nothing_is_fetched_from_elsewhere(self):
        for words in (("GET", "/"), ("GET", "/page/main.js"), ("GET", "/nothing"), ("POST", "/catalog"), ("POST", "/request", b"open 1")):
            self.served.ask(*words)
            policy = self.served.headers["Content-Security-Policy"].split("; ")
            self.assertEqual((policy[0], "connect-src 'self'" in policy, self.served.headers["X-Content-Type-Options"]), ("default-src 'none'", True, "nosniff"))


class WithoutEdits(Page):
    words = []

    def test_edits_are_refused(self):
        for line in (b"append a 9", b"create x 0 1 0", b"clear a 0 1", b"sweep last a 1", b" set a 0 5", b"sets"):
            self.assertEqual(self.served.request(line)[0], 403, line)
            self.assertEqual(self.served.request(b"open 1", line)[0], 403, line)


class Places(Page):
    def test_a_page_that_was_killed_makes_room_at_once_and_idle_ones_give_way(self):
        streams = []
        for number in range(1, 17):
            self.assertEqual(self.served.request(b"open %d" % number)[1][4], OPENED)
            streams.append(self.served.events(number))
            read_until(streams[-1], b": here")
        status, data = self.served.request(b"open 17")
        self.assertEqual((status, data[4:6]), (200, bytes((REFUSED, 6))))
        for stream in streams[:4]:
            stream.close()
        self.assertTrue(until(lambda: self.served.request(b"open 17")[1][4] == OPENED), "a place that was left isn't given again")
        # One that is held and was asked now stays.
        self.assertEqual(self.served.request(b"view 16 a 1 1 0 4 auto")[1][4], VIEW)
        for stream in streams:
            stream.close()


class Sweeps(unittest.TestCase):
    """The rules of sessions, over a program that isn't there."""

    class Program:
        def __init__(self):
            self.over, self.lines = threading.Event(), []

        def answer(self, line):
            self.lines.append(line)
            kinds = {b"open": OPENED, b"close": CLOSED, b"view": VIEW}
            return bytes((0, 0, 0, 5, kinds[line.partition(b" ")[0]], 0, 0, 0, 1))

    def test_sessions_of_nobody_are_closed_within_a_minute(self):
        program = self.Program()
        self.addCleanup(program.over.set)
        sessions = Sessions(program, Changes())
        for line in (b"open 1", b"open 2", b"open 3"):
            sessions.answer(line)
        held = sessions.attach(b"2")
        for session in sessions.held.values():
            session.asked -= 55
        sessions.held[b"3"].asked += 10 * SECONDS
        self.assertTrue(until(lambda: program.lines[-1] == b"close 1"))
        self.assertEqual(sorted(sessions.held), [b"2", b"3"])
        before = held.asked
        sessions.detach(held)
        self.assertGreaterEqual(held.asked, before + 55)

    def test_a_page_that_doesnt_keep_up_with_what_it_is_pushed_has_to_begin_anew(self):
        program = self.Program()
        self.addCleanup(program.over.set)
        sessions = Sessions(program, Changes())
        sessions.answer(b"open 1")
        held = sessions.attach(b"1")
        for _ in range(1000):
            program.pushed(bytes((0, 0, 0, 88, VIEW, 0, 0, 0, 1)))
        self.assertTrue(held.over.is_set())
        self.assertLess(len(held.pushes), 100)
        self.assertTrue(until(lambda: program.lines[-1] == b"close 1"))

    def test_who_is_idle_longest_gives_way_first_those_that_no_page_holds(self):
        program = self.Program()
        self.addCleanup(program.over.set)
        sessions = Sessions(program, Changes())
        for line in (b"open 1", b"open 2", b"open 3"):
            sessions.answer(line)
        sessions.attach(b"1")
        for session in sessions.held.values():
            session.asked += 10 * SECONDS
        self.assertFalse(sessions.make_room())
        for number, idle in ((b"1", 500), (b"2", 10), (b"3", 20)):
            sessions.held[number].asked -= 10 * SECONDS + idle
        self.assertTrue(sessions.make_room() and sessions.make_room() and sessions.make_room())
        self.assertEqual(program.lines[-3:], [b"close 3", b"close 2", b"close 1"])


class Crowds(Page):
    def test_half_requests_shut_nobody_out(self):
        def threads():
            with open(f"/proc/{self.served.process.pid}/status", encoding="ascii") as file:
                return int(re.search(r"Threads:\s+(\d+)", file.read())[1])

        def seconds_beside_halves():
            halves = []
            for _ in range(200):
                half = self.served.connect()
                half.sendall(b"POST /request HTTP/1.1\r\nHost: ")
                halves.append(half)
            self.assertTrue(until(lambda: threads() < 64 + 16))
            began = time.monotonic()
            self.assertEqual(self.served.request(b"open 1")[1][4], OPENED)
            took = time.monotonic() - began
            self.served.request(b"close 1")
            for half in halves:
                half.close()
            return took

        # Less than the ten seconds behind which a half request is cut. A slow machine may do so at another try.
        self.assertTrue(until(lambda: seconds_beside_halves() < 5))

    def test_a_head_and_a_body_have_a_deadline_also_byte_by_byte(self):
        head = f"POST /request HTTP/1.1\r\nHost: {self.served.place}\r\nX-Chart-Token: {self.served.token}\r\nContent-Length: 99\r\n\r\n".encode()

        def seconds_until_cut(front, byte):
            with self.served.connect() as stream:
                stream.sendall(front)
                began = time.monotonic()
                with contextlib.suppress(OSError):
                    while time.monotonic() - began < 60:
                        stream.sendall(byte)
                        time.sleep(0.5)
                return time.monotonic() - began

        for front, byte in ((b"POST /request HTTP/1.1\r\nX: ", b"x"), (head, b"o")):
            # A slow machine may do so at another try.
            self.assertTrue(until(lambda: seconds_until_cut(front, byte) < 15))

    def test_forty_browsers_at_once(self):
        results = []

        def ask(*words):
            """The status of an answer; one that waits while others are let in may be cut, and comes again as a browser does."""
            while True:
                with contextlib.suppress(ConnectionError):
                    return self.served.ask(*words)[0]

        def look(number):
            statuses = [ask("GET", path) for path in ("/", "/page/main.js", "/chart_client.wasm")]
            results.append(statuses + [ask("POST", "/request", b"open %d" % number)])

        threads = [threading.Thread(target=look, args=(number,), daemon=True) for number in range(1, 41)]
        for thread in threads:
            thread.start()
        for thread in threads:
            thread.join(SECONDS)
        self.assertEqual(results, [[200] * 4] * 40)


class Starts(unittest.TestCase):
    def setUp(self):
        self.folder = tempfile.mkdtemp()
        self.addCleanup(shutil.rmtree, self.folder)

    def test_a_store_that_is_none_ends_it_with_the_programs_status_and_words(self):
        missing = run_served(os.path.join(self.folder, "no.store"), "--program", PROGRAM)
        self.assertEqual((missing.returncode, missing.stdout), (6, b""))
        self.assertRegex(missing.stderr, b"status 6 at 0: .*no.store: No such file")
        store = made_store(self.folder)
        with open(store, "r+b") as file:
            file.seek(66 * 4096)
            file.write(b"no store")
        damaged = run_served(store, "--program", PROGRAM)
        self.assertEqual((damaged.returncode, damaged.stdout), (7, b""))
        self.assertIn(b"status 7 at 66", damaged.stderr)

    def test_a_port_that_cant_be_had_is_told_in_a_line(self):
        store = made_store(self.folder)
        with socket.socket() as taken:
            taken.bind(("127.0.0.1", 0))
            taken.listen()
            for port in (taken.getsockname()[1], 99999, -1):
                run = run_served(store, "--program", PROGRAM, "--port", str(port))
                self.assertEqual((run.returncode, run.stderr.count(b"\n")), (1, 1), run.stderr)
                self.assertIn(b"port %d can't be had" % port, run.stderr)

    def test_a_program_that_isnt_there_and_one_that_isnt_built(self):
        store = made_store(self.folder)
        run = run_served(store, "--program", os.path.join(self.folder, "no"))
        self.assertEqual((run.returncode, run.stderr.count(b"\n")), (1, 1), run.stderr)
        copy = os.path.join(self.folder, "copy")
        for part in ("clients/web", "clients/python/zurtkvani_client", "docs"):
            shutil.copytree(os.path.join(ROOT, part), os.path.join(copy, part))
        with open(os.path.join(copy, "chart"), "w", encoding="ascii") as file:
            file.write('#!/bin/sh\n[ "$1" = --version ] && echo "chart 1, commit x, to be built" || touch built\n')
        os.chmod(file.name, 0o755)
        run = run_served(store, server=os.path.join(copy, "clients/web/serve.py"), cwd=copy)
        self.assertEqual((run.returncode, os.path.exists(os.path.join(copy, "built"))), (1, False))
        self.assertIn(b"the program isn't built", run.stderr)


class Tokens(unittest.TestCase):
    def setUp(self):
        self.folder = tempfile.mkdtemp()
        self.addCleanup(shutil.rmtree, self.folder)
        self.store = made_store(self.folder)

    def test_open_puts_the_token_into_a_file_that_redirects(self):
        browser, seen = os.path.join(self.folder, "browser"), os.path.join(self.folder, "seen")
        with open(browser, "w", encoding="ascii") as file:
            file.write(f'#!/bin/sh\necho "$1" > {seen}.part\nmv {seen}.part {seen}\nsleep 5\n')
        os.chmod(browser, 0o755)
        served = Served(self.store, "--open", env={**os.environ, "BROWSER": browser})
        self.addCleanup(served.end)
        self.assertTrue(until(lambda: os.path.exists(seen)))
        with open(seen, encoding="ascii") as file:
            path = urllib.parse.unquote(file.read().strip().removeprefix("file://"))
        self.assertEqual(os.stat(path).st_mode & 0o777, 0o600)
        with open(path, encoding="ascii") as file:
            self.assertIn(f'content="0; url={served.address}"', file.read())
        for process in filter(str.isdigit, os.listdir("/proc")):
            with contextlib.suppress(OSError), open(f"/proc/{process}/cmdline", "rb") as file:
                self.assertNotIn(served.token.encode(), file.read())
        served.end()
        self.assertFalse(os.path.exists(path))

    def test_a_tokens_file_is_made_and_used_again(self):
        path = os.path.join(self.folder, "token")
        tokens = []
        for _ in range(2):
            served = Served(self.store, "--token-file", path)
            tokens.append(served.token)
            served.end()
        self.assertEqual((len(tokens[0]), tokens[0], os.stat(path).st_mode & 0o777), (32, tokens[1], 0o600))
        os.chmod(path, 0o644)
        run = run_served(self.store, "--program", PROGRAM, "--token-file", path)
        self.assertEqual(run.returncode, 1)
        self.assertIn(b"can be read by others", run.stderr)

    def test_another_origin_is_taken_where_it_was_named_and_a_log_has_no_token(self):
        log = os.path.join(self.folder, "log")
        served = Served(self.store, "--origin", "http://localhost:9000", "--log", log)
        self.addCleanup(served.end)
        self.assertEqual(served.ask("POST", "/request", b"open 1", Host="localhost:9000", Origin="http://localhost:9000")[0], 200)
        self.assertEqual(served.ask("POST", "/request", b"open 2", Host="localhost:9001", Origin="http://localhost:9001")[0], 403)
        self.assertEqual(served.ask("GET", "/?panel=a")[0], 200)
        with open(log, encoding="utf-8") as file:
            text = file.read()
        told = [re.sub(r".*\] ", "", line) for line in text.splitlines()]
        self.assertEqual(told, ['"POST /request" 200 -', '"POST /request" 403 -', '"GET /" 200 -'])
        self.assertNotIn(served.token, text)


class Feeds(Page):
    words, pipes = ["--feed"], {"stdin": subprocess.PIPE}

    def test_edits_come_from_standard_input(self):
        lines = b"append a 9\nview 1 a 1 1 0 1 auto\nset b 0 1\n" + b"append a 5\n" * 200 + b"append a 6"
        self.served.process.stdin.write(lines)
        self.served.process.stdin.close()
        self.served.process.stdin = None
        self.assertTrue(until(lambda: json.loads(self.served.ask("POST", "/catalog")[1])[0]["slots"] == 205), "the edits aren't done")
        self.served.process.terminate()
        _, said = self.served.process.communicate(timeout=SECONDS)
        self.assertIn(b"'view 1 a 1 1 0 1 auto', is no edit", said)
        self.assertIn(b"'set b 0 1', is refused", said)


if __name__ == "__main__":
    unittest.main()
