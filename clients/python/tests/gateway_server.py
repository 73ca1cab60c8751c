"""A gateway of its own for a test: its configuration, its process, and requests of it. It listens on 127.0.0.1 alone."""
import contextlib
import json
import os
import random
import re
import resource
import signal
import socket
import subprocess
import sys
import tempfile
import unittest
import urllib.error
import urllib.parse
import urllib.request
from decimal import Decimal

from waiting import SECONDS, until

ROOT = os.path.dirname(os.path.dirname(os.path.dirname(os.path.dirname(os.path.realpath(__file__)))))
PROGRAMS = [os.path.join(ROOT, way) for way in ("crates/chart_program/out/chart_program", "dist/chart_program")]
PROGRAM = next(filter(os.path.exists, PROGRAMS), None)
sys.path.insert(0, os.path.join(ROOT, "clients/python"))
PYTHON = sys.executable
T = 1_700_000_000  # seconds; a multiple of 10, and not of 60
SECOND = '[[series]]\nstep = "1s"\nscale = 2\n'
OPENER = urllib.request.build_opener(urllib.request.ProxyHandler({}))

try:
    import aiohttp  # noqa: F401
    import tomllib  # noqa: F401

    MISSING = None
except ImportError as why:
    MISSING = f"a gateway needs Python 3.11 and aiohttp: {why}"


def free_port():
    """A port that nobody listens on, and none of those that the system hands out by itself: these may be taken while a gateway is started again."""
    for port in random.sample(range(20_000, 32_000), 1000):
        with contextlib.suppress(OSError), socket.socket() as one:
            one.bind(("127.0.0.1", port))
            return port
    raise AssertionError("no port is free")


class Gateway:
    """One gateway over a folder of stores. Where it is started again it is over the same ones."""

    def __init__(self, folder, sections=None, series="", size="64M", program=PROGRAM):
        self.folder, self.port = folder, free_port()
        self.stores = os.path.join(folder, "stores")
        self.path = os.path.join(folder, "gateway.toml")
        words = {
            "listen": f"port = {self.port}", "stores": f"folder = {json.dumps(self.stores)}\nsize = \"{size}\"\nprogram = {json.dumps(program)}",
        }
        for name, more in (sections or {}).items():
            words[name] = words.get(name, "") + "\n" + more
        # Where a test doesn't ask for another limit none is reached for the slowness of a machine.
        for name, key in (("write", "seconds"), ("read", "seconds"), ("alarms", "seconds"), ("limits", "head_seconds"), ("limits", "body_seconds")):
            if not re.search(rf"^{key} ", words.setdefault(name, ""), re.MULTILINE):
                words[name] += f'\n{key} = "{SECONDS}s"'
        with open(self.path, "w", encoding="utf-8") as file:
            file.write("".join(f"[{name}]\n{text}\n" for name, text in words.items()) + series)
        self.process = self.log = None

    def start(self, most_bytes=None):
        """Starts it, and waits until it listens; where a number of bytes is named it and its runs write no file beyond that."""

        def limit():
            resource.setrlimit(resource.RLIMIT_FSIZE, (most_bytes, most_bytes))

        command = [PYTHON, "-m", "zurtkvani_client", "gateway", self.path]
        environment = {**os.environ, "PYTHONPATH": os.path.join(ROOT, "clients/python")}
        if self.log:
            self.log.close()
        self.log = tempfile.TemporaryFile()
        first = limit if most_bytes else None
        self.process = subprocess.Popen(command, stdin=subprocess.DEVNULL, stderr=self.log, env=environment, preexec_fn=first)
        until(lambda: self.listens() or self.process.poll() is not None)
        if self.process.poll() is None and self.listens():
            return self
        self.kill()
        raise AssertionError(f"the gateway doesn't listen: {self.told()}")

    def listens(self):
        try:
            socket.create_connection(("127.0.0.1", self.port), SECONDS).close()
            return True
        except OSError:
            return False

    def told(self):
        """What it wrote to its log. It shares the place in that file, which stays where it is."""
        return os.pread(self.log.fileno(), os.fstat(self.log.fileno()).st_size, 0).decode(errors="replace")

    def events(self, named=None):
        """What its log tells, or of that what has a name; a line that isn't whole yet comes later."""
        told = [json.loads(line) for line in self.told().splitlines(True) if line.startswith("{") and line.endswith("\n")]
        return [event for event in told if named in (None, event["event"])]

    def stop(self):
        """Ends it, and gives its exit status."""
        if self.process and self.process.poll() is None:
            self.process.send_signal(signal.SIGTERM)
        return self.process.wait(SECONDS)

    def kill(self):
        """Kills it, where it runs."""
        if self.process and self.process.poll() is None:
            self.process.kill()
            self.process.wait(SECONDS)

    def close(self):
        self.kill()
        if self.log:
            self.log.close()
            self.log = None

    def children(self):
        """The processes of its runs, of those that work."""
        return [int(number) for number in os.listdir("/proc") if number.isdecimal() and self.is_run(number)]

    def is_run(self, number):
        with contextlib.suppress(OSError), open(f"/proc/{number}/stat", "rb") as stat, open(f"/proc/{number}/cmdline", "rb") as words:
            state, parent = stat.read().rsplit(b")", 1)[1].split()[:2]
            return int(parent) == self.process.pid and state != b"Z" and words.read().endswith(b"\0host\0")
        return False

    def kill_runs(self):
        """Kills the runs, one at least, and waits until the gateway has told that they ended."""
        found, ended = until(self.children), len(self.events("a run ended"))
        for child in found:
            with contextlib.suppress(ProcessLookupError):
                os.kill(child, signal.SIGKILL)
        if not found or not until(lambda: len(self.events("a run ended")) >= ended + len(found)):
            raise AssertionError("no run was killed")

    def ask(self, path, data=None, seconds=SECONDS, method=None, **headers):
        """The status, the text and the headers that it answers."""
        sent = data.encode() if isinstance(data, str) else data
        names = {name.replace("_", "-"): value for name, value in headers.items()}
        asked = urllib.request.Request(f"http://127.0.0.1:{self.port}{path}", sent, names, method=method)
        try:
            with OPENER.open(asked, timeout=seconds) as answer:
                return answer.status, answer.read(), dict(answer.headers)
        except urllib.error.HTTPError as why:
            with why:
                return why.code, why.read(), dict(why.headers)

    def write(self, lines, path="/write?db=&precision=s", **headers):
        status, text, _ = self.ask(path, lines, **headers)
        return status, text.decode()

    def told_of(self, path, **words):
        """The data of an answer in Prometheus' form."""
        status, text, _ = self.ask(f"/api/v1/{path}?{urllib.parse.urlencode(words, doseq=True)}")
        answer = json.loads(text)
        if answer["status"] != "success":
            raise AssertionError(f"{status}: {answer}")
        return answer["data"]

    def metrics(self):
        lines = self.ask("/metrics")[1].decode().splitlines()
        return {name: float(value) for name, value in (line.rsplit(" ", 1) for line in lines if not line.startswith("#"))}

    def exported(self, name, store="gateway.store"):
        """The values of a series by their times, as the program tells them behind the gateway's end."""
        done = subprocess.run([PROGRAM, os.path.join(self.stores, store), "export", "--", name], stdout=subprocess.PIPE, check=True)
        return dict((int(time), value) for time, value in (line.split(",") for line in done.stdout.decode().split()[1:]))

    def listed(self, store="gateway.store"):
        """The series of a store: by their names the start, the step, the scale and the slots."""
        done = subprocess.run([PROGRAM, os.path.join(self.stores, store), "list"], stdout=subprocess.PIPE, check=True)
        return {name: tuple(map(int, numbers)) for name, *numbers in map(str.split, done.stdout.decode().splitlines())}


class OverAGateway(unittest.TestCase):
    """Each test has a gateway of its own."""

    SECTIONS, SERIES = {}, SECOND

    def setUp(self):
        folder = tempfile.TemporaryDirectory()
        self.addCleanup(folder.cleanup)
        self.gateway = self.made(folder.name)

    def made(self, folder):
        gateway = Gateway(folder, self.SECTIONS, self.SERIES)
        self.addCleanup(gateway.close)
        return gateway.start()

    def require_written(self, lines, **named):
        status, text = self.gateway.write(lines, **named)
        self.assertEqual(status, 204, text)

    def values(self, query, at):
        """The raw values of a query as of a time, by the text of the labels."""
        data = self.gateway.told_of("query", query=query, time=at)
        return {json.dumps(one["metric"], sort_keys=True): {time: Decimal(value) for time, value in one["values"]} for one in data["result"]}


def require_all():
    """Passes over a whole file of tests where what they need isn't there."""
    if MISSING:
        raise unittest.SkipTest(MISSING)
    if PROGRAM is None:
        raise unittest.SkipTest("the program isn't built, and dist/ has none")
