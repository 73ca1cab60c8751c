"""What the probes of serve.py share: a store, a serve.py over it, and requests to it as they stand."""
import contextlib
import http.client
import os
import shutil
import socket
import subprocess
import sys
import tempfile
import time
import unittest
import urllib.parse

HERE = os.path.dirname(os.path.realpath(__file__))
ROOT = os.path.dirname(os.path.dirname(HERE))
PROGRAM = os.environ.get("CHART_PROGRAM", os.path.join(ROOT, "dist/chart_program"))
SECONDS = 300  # a guard alone
REFUSED = 2  # the kind of a frame


def until(holds):
    """Waits until `holds()` gives something that is true, and gives that; where it never does what it gives at last."""
    ends = time.monotonic() + SECONDS
    while not (found := holds()) and time.monotonic() < ends:
        time.sleep(0.05)
    return found


def made_store(folder):
    """A store with a series of three values."""
    store = os.path.join(folder, "a.store")
    with open(store, "wb") as file:
        file.truncate(4 << 20)
    for command, lines in (("init", b""), ("run", b"create a 0 1 1\nappend a 4 7 2\n")):
        subprocess.run([PROGRAM, store, command], input=lines, stdout=subprocess.DEVNULL, check=True)
    return store


class Served:
    """A serve.py over a store, and requests to it."""

    def __init__(self, *words, **pipes):
        self.process = subprocess.Popen(
            [sys.executable, os.path.join(HERE, "serve.py"), *words, "--program", PROGRAM], stdout=subprocess.PIPE, stderr=subprocess.PIPE, **pipes
        )
        self.address = self.process.stdout.readline().decode().strip()
        parts = urllib.parse.urlsplit(self.address)
        self.place, self.token = parts.netloc, urllib.parse.parse_qs(parts.fragment).get("token", [""])[0]
        self.host, self.port = parts.hostname, parts.port

    def connect(self):
        return socket.create_connection((self.host, self.port), timeout=SECONDS)

    def ask(self, method, path, body=b"", **headers):
        """The status and the body of an answer; a header of None isn't sent."""
        connection = http.client.HTTPConnection(self.host, self.port, timeout=SECONDS)
        own = {"Host": self.place, "Origin": f"http://{self.place}", "X-Chart-Token": self.token, "Content-Length": str(len(body))}
        own.update({name.replace("_", "-"): value for name, value in headers.items()})
        connection.putrequest(method, path, skip_host=True, skip_accept_encoding=True)
        for name, value in own.items():
            for one in value if isinstance(value, list) else [value]:
                if one is not None:
                    connection.putheader(name, one)
        connection.endheaders()
        with contextlib.suppress(ConnectionError):
            connection.send(body)
        answer = connection.getresponse()
        data, self.headers = answer.read(), answer.headers
        connection.close()
        return answer.status, data

    def request(self, *lines):
        return self.ask("POST", "/request", b"\n".join(lines))

    def kinds(self, *lines):
        """The kinds of the frames that answer some lines; of a refusal its number below 0."""
        _, data = self.request(*lines)
        kinds = []
        while data:
            kinds.append(-data[5] if data[4] == REFUSED else data[4])
            data = data[4 + int.from_bytes(data[:4], "big") :]
        return kinds

    def events(self, session):
        """A stream of a session's events, its head read."""
        stream = self.connect()
        body = str(session).encode()
        head = f"POST /events HTTP/1.1\r\nHost: {self.place}\r\nX-Chart-Token: {self.token}\r\nContent-Length: {len(body)}\r\n\r\n"
        stream.sendall(head.encode() + body)
        return stream

    def end(self):
        self.process.terminate()
        self.process.communicate(timeout=SECONDS)


class Page(unittest.TestCase):
    words, pipes = ["--edit"], {}

    def setUp(self):
        self.folder = tempfile.mkdtemp()
        self.addCleanup(shutil.rmtree, self.folder)
        self.store = made_store(self.folder)
        self.served = Served(self.store, *self.words, **self.pipes)
        self.addCleanup(self.served.end)


def run_served(*words, server=os.path.join(HERE, "serve.py"), **more):
    """A serve.py that ends by itself."""
    run = subprocess.run([sys.executable, server, *words], capture_output=True, timeout=SECONDS, check=False, **more)
    if b"Traceback" in run.stderr:
        raise AssertionError(run.stderr.decode())
    return run


def read_until(stream, wanted):
    """What a stream gives until a text is among it."""
    data = b""
    while wanted not in data:
        piece = stream.recv(65536)
        if not piece:
            break
        data += piece
    return data
