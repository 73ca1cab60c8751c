"""A viewer of the page behind a gateway, without a browser: it asks as the page does, and draws by the client in frames.py."""
import base64
import contextlib
import http.client
import io
import json
import subprocess

from gateway_server import PROGRAM
from waiting import SECONDS
from zurtkvani_client import frames

CACHE = 131_072


def frames_in(data):
    """The frames that an answer has."""
    while data:
        size = 4 + int.from_bytes(data[:4], "big")
        yield data[:size]
        data = data[size:]


class Denied(Exception):
    """An answer with another status than 200."""


class Viewer:
    def __init__(self, port, number, **headers):
        self.port, self.number, self.headers = port, number, {"X-Chart-Token": "", **headers}
        self.sessions, self.stream, self.seen = {}, None, []

    def connect(self):
        return http.client.HTTPConnection("127.0.0.1", self.port, timeout=SECONDS)

    def post(self, path, body):
        with contextlib.closing(self.connect()) as connection:
            connection.request("POST", path, body, self.headers)
            answer = connection.getresponse()
            data = answer.read()
        if answer.status != 200:
            raise Denied(f"{answer.status} {data.decode()}")
        return data

    def request(self, *lines):
        """What lines are answered: pairs of a frame and its picture."""
        found = []
        for data in frames_in(self.post("/request", "\n".join(lines).encode())):
            fields = frames.Fields(io.BytesIO(data))
            found.append((data[4], frames.accept(fields, self.sessions)))
        return found

    def open(self):
        ((kind, _),) = self.request(f"open {self.number} {CACHE}")
        return kind

    def close(self):
        self.hang_up()
        return self.request(f"close {self.number}")[0][0]

    def pictures(self, *views):
        """The pictures of views, as raw PBMs."""
        return self.drawn("view", views)

    def sums(self, *sums):
        """The pictures of sums of two series, as raw PBMs; or what they are refused."""
        return self.drawn("sum", sums)

    def drawn(self, word, lines):
        answers = self.request(*(f"{word} {self.number} {words}" for words in lines))
        told = [pair for kind, pair in answers if kind not in (frames.OPENED, frames.CLOSED)]
        return [picture.to_pbm() if picture else frame for frame, picture in told]

    def listen(self):
        """Begins the stream of events, which holds the session."""
        self.stream = self.connect()
        self.stream.request("POST", "/events", str(self.number), self.headers)
        self.answer = self.stream.getresponse()
        if self.answer.status != 200:
            raise Denied(f"{self.answer.status} {self.answer.read()}")
        return self

    def changed(self):
        """The series that the next change tells, each with its slots."""
        return {one["name"]: one["slots"] for one in self.told("changed")}

    def follow(self, word="follow"):
        """The frame by which its last view is followed, or not any more."""
        ((_, (frame, _)),) = self.request(f"{word} {self.number}")
        return frame

    def pushed(self):
        """The picture of the next frame that is pushed, as a raw PBM."""
        fields = frames.Fields(io.BytesIO(base64.b64decode(self.told("pushed"))))
        return frames.accept(fields, self.sessions)[1].to_pbm()

    def event(self):
        """The next event: its name, and what it tells."""
        name = None
        while True:
            line = self.answer.readline()
            if not line:
                raise Denied("the stream has ended")
            if line.startswith(b"event: "):
                name = line[7:].strip().decode()
            if line.startswith(b"data: ") and name:
                return name, json.loads(line[6:])

    def told(self, name):
        """What the next event of a name tells; others are passed over."""
        while True:
            event, value = self.event()
            if event == name:
                return value

    def hang_up(self):
        if self.stream:
            self.stream.close()
            self.answer.close()
            self.stream = None


def slots_of(viewer, name):
    """How many slots a series has, as its gateway tells it."""
    return next(one["slots"] for one in json.loads(viewer.post("/catalog", b"")) if one["name"] == name)


def names_in(path):
    """The names of the series in a file that no run holds."""
    listed = subprocess.run([PROGRAM, path, "list"], stdout=subprocess.PIPE, check=True).stdout
    return {row.split()[0] for row in listed.decode().splitlines()}


def derived(path, sums):
    """What `derive` draws of each of some sums, of the store in a file that no run holds."""
    return [subprocess.run([PROGRAM, path, "derive"], input=words.encode(), stdout=subprocess.PIPE, check=True).stdout for words in sums]


def drawn(path, views):
    """What `draw` makes of views of the store in a file that no run holds."""
    lines = "".join(f"open 1 {CACHE}\nview 1 {words}\nclose 1\n" for words in views)
    sent = subprocess.run([PROGRAM, path, "serve"], input=lines.encode(), stdout=subprocess.PIPE, check=True).stdout
    pictures = subprocess.run([PROGRAM, "-", "draw"], input=sent, stdout=subprocess.PIPE, check=True).stdout
    found = []
    for words in views:
        width, height = map(int, words.split()[1:3])
        size = len(b"P4\n%d %d\n" % (width, height)) + (width + 7) // 8 * height
        found.append(pictures[:size])
        pictures = pictures[size:]
    return found
