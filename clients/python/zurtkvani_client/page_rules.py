"""What both servers of the page have in common, clients/web/serve.py and the gateway: its files, their headers, and the rules of its requests."""
import contextlib
import fcntl
import json
import os
import re

from .frames import CLOSED, DONE, OPENED, REFUSED, ROWS, VIEW
from .words import numbers_of

__all__ = ["CLOSED", "DONE", "OPENED", "REFUSED", "ROWS", "VIEW"]

HERE = os.path.dirname(os.path.realpath(__file__))
# Of the repository and of ./install, and of Debian's package, whose modules stand elsewhere.
FOLDERS = (os.path.join(HERE, "../../web"), "/usr/lib/zurtkvani/clients/web", "/usr/local/lib/zurtkvani/clients/web")
MODULE = "chart_client.wasm"  # of the proved client
SHOWN = re.compile(r"/(?:|(?:page|panels)\.css|chart_client\.(?:js|wasm)|proved_client\.js|refusals\.js|(?:page|client)/[a-z_]+\.js)")
KINDS = {
    ".html": "text/html; charset=utf-8", ".js": "text/javascript; charset=utf-8", ".css": "text/css; charset=utf-8", ".wasm": "application/wasm",
}
HEADERS = {
    "Content-Security-Policy": "default-src 'none'; script-src 'self' 'wasm-unsafe-eval'; style-src 'self'; connect-src 'self'; "
    "base-uri 'none'; form-action 'none'; frame-ancestors 'none'",
    "X-Content-Type-Options": "nosniff",
    "Referrer-Policy": "no-referrer",
    "Cache-Control": "no-store",
}
FRAMES, EVENTS = "application/octet-stream", "text/event-stream"
TOKEN = "X-Chart-Token"  # the header with the page's token
OFFERS = "X-Chart-Offers"  # and that of the catalog with what else than views the server answers: words of "sum", "follow" and "socket", or nothing

LONGEST = 8192  # bytes of a line
MOST_LINES = 64  # of a request: the edits that a run stores together
MOST_BYTES = 65536  # of a body
EDITS = (b"create", b"append", b"set", b"clear")
OF_SESSION = (b"open", b"close", b"view", b"zoom", b"pan", b"sum")
UNKNOWN_SESSION, SESSION_OPEN, TOO_MANY = numbers_of("UnknownSession", "SessionOpen", "TooManySessions")
GONE = 30  # seconds from the last request until a session that no page holds is closed
IDLE = {False: 5, True: 60}  # seconds without a request from which a session gives way, by whether a page holds it
SWEEP = 5  # from one look at that to the next
BEAT = 5  # seconds from one sign of life on a stream to the next
REST = 0.02  # and at least from what changed to what changes next, so that many edits are told together
AT_ONCE = 2**20  # bytes that the program may send before any are read, so that it needn't wait within a frame
SET_PIPE_SIZE = getattr(fcntl, "F_SETPIPE_SZ", 1031)  # (Python has the name from 3.10 on)


def widen(pipe):
    """Gives a pipe from the program room for so many bytes, where the system does."""
    with contextlib.suppress(OSError):
        fcntl.fcntl(pipe, SET_PIPE_SIZE, AT_ONCE)


def file_of(path, folder, module=None):
    """The file that a path of an address names, and its kind; None where it names none."""
    if not SHOWN.fullmatch(path):
        return None
    name = path[1:] or "index.html"
    kind = KINDS[os.path.splitext(name)[1]]
    if name == MODULE:
        return module or os.path.join(folder, "../../dist", MODULE), kind
    return os.path.join(folder, name), kind


def lines_of(body, words):
    """The lines of a request. Raises ValueError where they are too many or too long, and PermissionError where one doesn't begin with one of the
    words that are taken, None for any."""
    lines = body.split(b"\n")
    if len(lines) > MOST_LINES or not all(1 <= len(line) <= LONGEST and line != b"\r" for line in lines):
        raise ValueError(f"a request is at most {MOST_LINES} lines, each of 1 to {LONGEST} bytes")
    if words and not all(re.match(rb"[^ \r]*", line)[0] in words for line in lines):
        raise PermissionError
    return lines


def number_in(line):
    """The number of the session that a line names, or None."""
    word, _, rest = line.rstrip(b"\r").partition(b" ")
    number = rest.partition(b" ")[0]
    return number if word in OF_SESSION and number.isdigit() else None


def refusal_in(frame):
    """The number of the refusal that a frame is, or None."""
    return frame[5] if frame[4] == REFUSED else None


def gives_way(held):
    """The key of the session that gives way, of sessions that are idle and may have streams: of those that were idle for long enough the one that was
    idle longest, first of those that no page holds; None where there is none."""
    idle = [(one.streams > 0, -one.idle(), key) for key, one in held.items() if one.idle() > IDLE[one.streams > 0]]
    return min(idle, key=lambda row: row[:2])[2] if idle else None


def told(series):
    """A series as JSON; its start as a text, since it may pass 2^53."""
    return {**series._asdict(), "start": str(series.start)}


def event(name, value):
    """An event of a stream."""
    return f"event: {name}\ndata: {json.dumps(value)}\n\n".encode()


SIGN_OF_LIFE = b": here\n\n"


class Latest:
    """The last change of each series. Who reads late gets each series once, as it is then: so nobody has to keep up."""

    def __init__(self):
        self.count, self.changes = 0, {}

    def note(self, series):
        for one in series:
            self.count += 1
            self.changes[one.name] = (self.count, one)

    def of(self, name):
        """How many changes there were up to the last one of a series."""
        return self.changes.get(name, (0,))[0]

    def behind(self, seen):
        """The series that changed behind the first `seen` changes."""
        return [series for number, series in self.changes.values() if number > seen]
