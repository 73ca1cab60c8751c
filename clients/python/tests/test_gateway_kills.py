"""Kills of a gateway and of its runs under load: what was answered as written is in the store, and nothing that was never sent."""
import http.client
import random
import tempfile
import threading
import time
import unittest
from decimal import Decimal

from gateway_server import Gateway, T, require_all
from waiting import SECONDS, until

require_all()

SERIES = '[[series]]\nstep = "1s"\nscale = 0\nstart = "2023-01-01"\n'
WRITERS, KILLS = 3, 6
REQUESTS, PAUSE = 200, 0.005  # the most of a writer from one kill to the next, so that no store is full, and the seconds between two


class Writer(threading.Thread):
    """Writes points, each at a time of its own, and keeps which were answered. A request that fails is sent again, as collectors do."""

    def __init__(self, port, number):
        super().__init__(daemon=True)
        self.port, self.number, self.draw = port, number, random.Random(number)
        self.sent, self.answered, self.ends = {}, {}, threading.Event()
        self.left = REQUESTS

    def run(self):
        at = 0
        while not self.ends.wait(PAUSE):
            if not self.left:
                continue
            self.left -= 1
            times = range(T + at, T + at + self.draw.choice((1, 50, 400)))
            part = {(f"m_w{self.number}_{self.draw.randrange(5)}", time_of): self.draw.randrange(1000) for time_of in times}
            at += 400
            self.sent.update(part)
            lines = "\n".join(f"m {name[2:]}={value}i {time_of}" for (name, time_of), value in part.items())
            while not self.ends.is_set():
                if self.post(lines) == 204:
                    self.answered.update(part)
                    break
                self.ends.wait(0.02)

    def post(self, lines):
        client = http.client.HTTPConnection("127.0.0.1", self.port, timeout=SECONDS)
        try:
            client.request("POST", "/write?precision=s", lines)
            return client.getresponse().status
        except (OSError, http.client.HTTPException):
            return None
        finally:
            client.close()


class Kills(unittest.TestCase):
    def setUp(self):
        folder = tempfile.TemporaryDirectory()
        self.addCleanup(folder.cleanup)
        self.gateway = Gateway(folder.name, {}, SERIES, size="256M")
        self.addCleanup(self.gateway.close)
        self.gateway.start()
        self.writers = [Writer(self.gateway.port, number) for number in range(WRITERS)]

    def under_load(self, kill):
        def answered():
            return sum(len(writer.answered) for writer in self.writers)

        for writer in self.writers:
            self.addCleanup(writer.ends.set)
            writer.start()
        self.assertTrue(until(answered))
        draw = random.Random(7)
        for _ in range(KILLS):
            time.sleep(0.1 + 0.4 * draw.random())
            kill()
            before = answered()
            for writer in self.writers:
                writer.left = REQUESTS
            self.assertTrue(until(lambda: answered() > before), "writes go on behind each kill")
        self.assertTrue(until(lambda: answered() > 1000))
        for writer in self.writers:
            writer.ends.set()
        for writer in self.writers:
            writer.join()

    def require_equal(self):
        self.assertEqual(self.gateway.stop(), 0)
        sent, answered = ({key: value for writer in self.writers for key, value in getattr(writer, of).items()} for of in ("sent", "answered"))
        exported = [(name, *pair) for name in self.gateway.listed() for pair in self.gateway.exported(name).items()]
        stored = {(name, time_of): int(Decimal(value)) for name, time_of, value in exported}
        self.assertGreater(len(answered), 1000)
        self.assertEqual({key: value for key, value in answered.items() if stored.get(key) != value}, {}, "answered, and not stored")
        self.assertEqual({key: value for key, value in stored.items() if sent.get(key) != value}, {}, "stored, and never sent")

    def test_kills_of_a_run(self):
        self.under_load(self.gateway.kill_runs)
        self.assertGreaterEqual(len(self.gateway.events("a run ended")), KILLS)
        self.require_equal()

    def test_kills_of_the_gateway(self):
        def kill():
            self.gateway.kill()
            self.gateway.start()

        self.under_load(kill)
        self.require_equal()


if __name__ == "__main__":
    unittest.main()
