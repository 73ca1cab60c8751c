"""Who is let in to a gateway, and what is too much."""
import base64
import contextlib
import gzip
import hashlib
import os
import re
import select
import signal
import socket
import tempfile
import threading
import unittest

from gateway_server import SECOND, Gateway, OverAGateway, T, require_all
from waiting import SECONDS, until

require_all()

TOKENS = "".join(f'{kind} = ["{hashlib.sha256(kind.encode()).hexdigest()}"]\n' for kind in ("read", "write"))


def peak(process):
    """The most bytes of memory that a process has had."""
    with open(f"/proc/{process}/status") as file:
        return next(int(line.split()[1]) for line in file if line.startswith("VmHWM")) * 1024


def connected(gateway):
    return socket.create_connection(("127.0.0.1", gateway.port), SECONDS)


def answer_of(connection, count=1):
    """What a connection is answered, until so many answers have begun, or it is hung up on."""
    data = b""
    with contextlib.suppress(ConnectionError):
        while data.count(b"HTTP/1.1 ") < count and (more := connection.recv(10_000)):
            data += more
    return data


class Guarded(OverAGateway):
    SECTIONS = {"tokens": TOKENS, "limits": 'body = "4K"\nunpacked = "8K"\n'}

    def test_tokens(self):
        basic = base64.b64encode(b"user:write").decode()
        for token, status in ((None, 401), ("Bearer read", 401), ("Bearer write", 204), ("Token write", 204), (f"Basic {basic}", 204), ("Basic !", 401)):
            self.assertEqual(self.gateway.write(f"w a=1 {T}", **{"Authorization": token} if token else {})[0], status, token)
        self.assertEqual(self.gateway.write(f"w a=1 {T}", path="/write?precision=s&u=x&p=write")[0], 204)
        self.assertEqual(self.gateway.ask("/api/v1/labels", Authorization="Bearer write")[0], 401)
        self.assertEqual(self.gateway.ask("/api/v1/labels", Authorization="Bearer read")[0], 200)
        self.assertEqual([self.gateway.ask(path)[0] for path in ("/healthz", "/metrics", "/backup")], [200, 401, 405])

    def test_limits_of_bodies(self):
        allowed = {"Authorization": "Bearer write"}
        self.assertEqual(self.gateway.write("# " + "x" * 5000, **allowed)[0], 413)
        self.assertEqual(self.gateway.write(gzip.compress(b"# " + b"x" * 10**6), Content_Encoding="gzip", **allowed)[0], 413)
    def test_pages_of_other_places_arent_let_in(self):
        allowed = {"Authorization": "Bearer write"}
        self.assertEqual(self.gateway.write(f"w a=1 {T}", Origin="http://elsewhere.example", **allowed)[0], 403)
        self.assertEqual(self.gateway.write(f"w a=1 {T}", Host="elsewhere.example", **allowed)[0], 403)
        self.assertEqual(self.gateway.write(f"w a=1 {T}", Origin=f"http://127.0.0.1:{self.gateway.port}", **allowed)[0], 204)


class Hurried(OverAGateway):
    SECTIONS = {"tokens": TOKENS, "limits": 'head_seconds = "1s"\nbody_seconds = "1s"\n'}

    def test_who_sends_a_part_alone_is_hung_up_on(self):
        def slow():
            with connected(self.gateway) as one, contextlib.suppress(ConnectionError):
                one.sendall(b"POST /write HTTP/1.1\r\nHost: localhost\r\nAuthorization: Bearer write\r\nContent-Length: 100\r\n\r\nw a=1")
                return answer_of(one)

        # On a slow machine the head may come too late, too.
        self.assertTrue(until(lambda: b" 408 " in (slow() or b"")))
        with connected(self.gateway) as silent:
            silent.sendall(b"POST /wri")
            self.assertEqual(answer_of(silent), b"")


class Crowded(OverAGateway):
    SECTIONS = {"limits": "client_connections = 8\nclient_requests_a_second = 5\n"}

    def test_limits_of_connections(self):
        held = [connected(self.gateway) for _ in range(12)]

        def hung_up_on():
            return len(select.select(held, [], [], 0)[0])

        # The two by which the start looked whether it listens may be counted a while longer.
        self.assertTrue(until(lambda: 4 <= hung_up_on() <= 6), hung_up_on())
        for one in held:
            one.close()

        def is_answered():
            with contextlib.suppress(OSError):
                return self.gateway.ask("/ping")[0] in (204, 429)

        self.assertTrue(until(is_answered))

    def test_limits_of_pace(self):
        def statuses():
            with connected(self.gateway) as one:
                one.sendall(b"GET /ping HTTP/1.1\r\nHost: localhost\r\n\r\n" * 60)
                return re.findall(rb"HTTP/1.1 (\d+) ", answer_of(one, 60))

        first = statuses()
        self.assertEqual((len(first), first[0]), (60, b"204"))
        self.assertTrue(until(lambda: b"429" in first or b"429" in statuses()))


class Busy(unittest.TestCase):
    def test_who_takes_no_answer_is_hung_up_on(self):
        # Where a slow machine makes no such answer in time it has more time at another try.
        self.assertTrue(any(map(self.is_hung_up_on, (9, 60, 240))))

    def is_hung_up_on(self, seconds):
        """Whether one who asks for much, and takes nothing of it, is hung up on; an answer that isn't made in so many seconds is a 503."""
        with tempfile.TemporaryDirectory() as folder, socket.socket() as slow:
            gateway = Gateway(folder, {"read": f'at_once = 1\nseconds = "{seconds}s"\nlookback = "1d"'}, SECOND).start()
            try:
                self.assertEqual(gateway.write("\n".join(f"w,n={at} v={at} {T}" for at in range(60)))[0], 204)
                slow.setsockopt(socket.SOL_SOCKET, socket.SO_RCVBUF, 4096)
                slow.connect(("127.0.0.1", gateway.port))
                slow.sendall(f"GET /api/v1/query_range?query=w_v&start={T}&end={T + 10_000}&step=1 HTTP/1.1\r\nHost: localhost\r\n\r\n".encode())
                path = 'zurtkvani_gateway_requests_total{path="/api/v1/query_range",status='
                found = until(lambda: [name for name in gateway.metrics() if name.startswith(path)], 2 * SECONDS)
                self.assertIn(found, ([path + '"499"}'], [path + '"503"}']))
                self.assertTrue(until(lambda: gateway.ask(f"/api/v1/query?query=w_v&time={T}")[0] == 200))
                self.assertEqual([line for line in gateway.told().splitlines() if not line.startswith("{")], [])
                return found == [path + '"499"}']
            finally:
                gateway.close()

    def test_what_comes_faster_than_the_disk_is_sent_away(self):
        with tempfile.TemporaryDirectory() as folder:
            gateway = Gateway(folder, {"write": 'waiting_points = 1000\nseconds = "2s"'}, SECOND).start()
            try:
                # On a slow machine two seconds may be too few.
                self.assertTrue(until(lambda: gateway.write(f"w v=0 {T}")[0] == 204))
                (child,) = gateway.children()
                os.kill(child, signal.SIGSTOP)
                lines = ["\n".join(f"w v={at} {T + number * 1000 + at}" for at in range(900)) for number in range(4)]
                waiting = [threading.Thread(target=gateway.write, args=(one,)) for one in lines[:3]]
                for one in waiting:
                    one.start()

                def sent_away():
                    status, _, headers = gateway.ask("/write?precision=s", lines[3])
                    self.assertEqual(status, 503)
                    return headers["Retry-After"] == "1"

                self.assertTrue(until(sent_away))
                self.assertEqual(gateway.ask("/healthz")[0], 200)
                for one in waiting:
                    one.join()
                lines.append(f"fresh v=1 {T}")
                self.assertEqual(gateway.write(lines[-1])[0], 503)
                os.kill(child, signal.SIGCONT)
                for one in lines:
                    self.assertTrue(until(lambda: gateway.write(one)[0] == 204))
                self.assertEqual(gateway.stop(), 0)
                self.assertEqual((len(gateway.exported("w_v")), gateway.exported("fresh_v")), (3600, {T: "1.00"}))
            finally:
                gateway.close()

    def test_memory_is_bounded_where_much_comes_and_the_disk_stands_still(self):
        sections = {"limits": 'body = "1M"\nunpacked = "1M"', "write": 'waiting_points = 20000\nwaiting_bytes = "6M"\nseconds = "60s"'}
        with tempfile.TemporaryDirectory() as folder:
            gateway = Gateway(folder, sections, SECOND).start()
            try:
                self.assertEqual(gateway.write(f"w v=0 {T}")[0], 204)
                (child,) = gateway.children()
                os.kill(child, signal.SIGSTOP)
                before, answers = peak(gateway.process.pid), []

                def flood(number):
                    body = "\n".join(f"w{number} v={at} {T + at}" for at in range(45_000))
                    for _ in range(5):
                        status, _, headers = gateway.ask("/write?precision=s", body)
                        answers.append((status, headers.get("Retry-After")))

                flooding = [threading.Thread(target=flood, args=(number,)) for number in range(16)]
                for one in flooding:
                    one.start()
                self.assertTrue(until(lambda: answers.count((503, "1")) >= 40))
                # The text of all that is taken in at once is 6 MB, and what is made of it some times as much.
                self.assertLess(peak(gateway.process.pid) - before, 150 * 2**20)
                os.kill(child, signal.SIGCONT)
                for one in flooding:
                    one.join()
                self.assertEqual({status for status, _ in answers} - {204, 503}, set())
                self.assertTrue(until(lambda: gateway.write(f"w v=1 {T}")[0] == 204))
            finally:
                gateway.close()

    def test_two_gateways_over_one_folder(self):
        with tempfile.TemporaryDirectory() as folder:
            one, other = Gateway(folder, {}, SECOND).start(), Gateway(folder, {}, SECOND)
            try:
                with self.assertRaisesRegex(AssertionError, "another gateway"):
                    other.start()
                self.assertEqual(one.ask("/healthz")[0], 200)
            finally:
                one.close()
                other.close()

    def test_bodies_of_nothing_but_bad_lines_hold_nobody_up(self):
        with tempfile.TemporaryDirectory() as folder:
            gateway = Gateway(folder, {}, SECOND).start()
            try:
                bad = threading.Thread(target=gateway.write, args=(gzip.compress(b"bad\n" * 2**20),), kwargs={"Content_Encoding": "gzip"})
                bad.start()
                others = 0
                while bad.is_alive():
                    self.assertEqual(gateway.ask("/ping")[0], 204)
                    others += bad.is_alive()
                bad.join()
                self.assertGreater(others, 9)
            finally:
                gateway.close()


if __name__ == "__main__":
    unittest.main()
