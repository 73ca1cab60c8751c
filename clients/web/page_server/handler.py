"""The answers over HTTP: the page's files, and behind its token request lines, the catalog and the stream of what changes."""
import base64
import contextlib
import hmac
import http.server
import itertools
import json
import os
import re
import select
import socket
import sys
import time

from zurtkvani_client import Ended, page_rules
from zurtkvani_client.page_rules import AT_ONCE, BEAT, EDITS, MOST_BYTES, OF_SESSION, REST

from . import web_socket
from .connections import ANSWER, BODY, HEAD, SOCKET, WAITING, Connections, refuse

FOLDER = os.path.dirname(os.path.dirname(os.path.realpath(__file__)))
MOST_STREAMS = 48
PUSHED = "X-Chart-Pushed"  # the header of an answer with how many frames its session had been pushed before it
READING = (*OF_SESSION, b"follow", b"unfollow", b"list", b"values")
EDITING = (*READING, *EDITS, b"sweep")
FIRST_PIECE, MOST_PIECE = 16384, 65536  # bytes of a frame in a message, so that a page sees over a slow line what came so far


class Refusal(Exception):
    """What isn't done, and its status over HTTP."""

    def __init__(self, status, why):
        super().__init__(why)
        self.status = status


def pieces_of(frame):
    """A frame in pieces, each twice as long as the one before it, but none longer than the most."""
    at, size = 0, FIRST_PIECE
    while at < len(frame):
        yield frame[at : at + size]
        at, size = at + size, min(2 * size, MOST_PIECE)


class Handler(http.server.BaseHTTPRequestHandler):
    protocol_version = "HTTP/1.1"
    server_version, sys_version = "chart", ""
    timeout = 60
    # The head and the body of an answer leave at once: apart, the body waits until the browser has acknowledged the head.
    wbufsize = AT_ONCE
    disable_nagle_algorithm = True

    def turn_to(self, state):
        self.server.connections.turn_to(self.connection, state)

    def handle_one_request(self):
        self.turn_to(WAITING)
        try:
            is_there = bool(self.rfile.peek(1))
        except (OSError, ValueError):
            is_there = False
        if not is_there:
            self.close_connection = True
            return
        self.turn_to(HEAD)
        super().handle_one_request()

    def the_only(self, name):
        """The value of a header that stands once, or None."""
        values = self.headers.get_all(name, [])
        return values[0] if len(values) == 1 else None

    def is_own(self):
        """Whether the request is for this server by one of its names, and from no other page."""
        origins = self.server.origins
        hosts = [origin.partition("://")[2] for origin in origins]
        origin = self.headers.get_all("Origin", [])
        return self.the_only("Host") in hosts and (not origin or self.the_only("Origin") in origins)

    def is_token(self, text):
        return hmac.compare_digest((text or "").encode(), self.server.token.encode())

    def head(self, status, kind, more):
        self.send_response(status)
        headers = {"Content-Type": kind, **more, **page_rules.HEADERS}
        if self.close_connection:
            headers["Connection"] = "close"
        for name, value in headers.items():
            self.send_header(name, str(value))
        self.end_headers()

    def send(self, status, kind, body, **more):
        self.head(status, kind, {"Content-Length": len(body), **more})
        if self.command != "HEAD":
            self.wfile.write(body)

    def send_json(self, status, value, **more):
        self.send(status, "application/json", json.dumps(value).encode(), **more)

    def refuse(self, status, why):
        # What is left of the request isn't read, so the connection can't go on.
        self.close_connection = True
        self.send_json(status, {"error": why})

    def do_GET(self):
        self.turn_to(ANSWER)
        if not self.is_own():
            return self.refuse(403, "another host or origin")
        path = self.path.partition("?")[0]
        if (self.command, path) == ("GET", "/socket"):
            return self.open_socket()
        found = page_rules.file_of(path, FOLDER, self.server.module)
        why = "its module isn't built" if path == "/" + page_rules.MODULE else "no such file"
        return self.send_file(*found, why) if found else self.refuse(404, why)

    do_HEAD = do_GET

    def send_file(self, path, kind, why):
        try:
            with open(path, "rb") as it:
                body = it.read()
        except OSError:
            return self.refuse(404, why)
        return self.send(200, kind, body)

    def do_POST(self):
        self.turn_to(BODY)
        if not self.is_own():
            return self.refuse(403, "another host or origin")
        if not self.is_token(self.the_only(page_rules.TOKEN)):
            return self.refuse(403, "a wrong token")
        body = self.body()
        if body is None:
            return self.refuse(400, f"a body has its length, and at most {MOST_BYTES} bytes")
        self.turn_to(ANSWER)
        step = {"/request": self.answer_lines, "/catalog": self.send_catalog, "/events": self.send_events}.get(self.path)
        if step is None:
            return self.refuse(404, "no such file")
        try:
            return step(body)
        except Ended as end:
            return self.refuse(503, str(end))

    def body(self):
        """The body of the request, where it tells its length and isn't too long."""
        length = self.the_only("Content-Length") or ""
        if not re.fullmatch("[0-9]{1,5}", length) or int(length) > MOST_BYTES or "Transfer-Encoding" in self.headers:
            return None
        body = self.rfile.read(int(length))
        return body if len(body) == int(length) else None

    def frames_of(self, body):
        """How many lines a body has, how many frames their session had been pushed before their first frame, and their frames as they come."""
        try:
            lines = page_rules.lines_of(body, EDITING if self.server.edits else READING)
        except ValueError as why:
            raise Refusal(400, str(why)) from None
        except PermissionError:
            raise Refusal(403, "without --edit no line is taken that edits, and none that isn't a request") from None
        frames = self.server.sessions.answers(lines)
        first = next(frames)
        return len(lines), self.server.sessions.pushed(lines[0]), itertools.chain([first], frames)

    def answer_lines(self, body):
        """Sends the frames of request lines, each as soon as it is there."""
        try:
            count, pushes, frames = self.frames_of(body)
        except Refusal as why:
            return self.refuse(why.status, str(why))
        if count == 1:
            return self.send(200, page_rules.FRAMES, next(frames), **{PUSHED: pushes})
        return self.send_pieces(frames, {PUSHED: pushes})

    def send_pieces(self, pieces, more):
        """Sends pieces as they come. Where the program ends in between, the answer has no end."""
        self.head(200, page_rules.FRAMES, {"Transfer-Encoding": "chunked", **more})
        try:
            for piece in itertools.chain(pieces, [b""]):
                self.wfile.write(b"%x\r\n%b\r\n" % (len(piece), piece))
                self.wfile.flush()
        except Ended:
            self.close_connection = True

    def open_socket(self):
        """Makes the connection a WebSocket, on which request lines are answered without the head of a request."""
        protocol, _, token = (self.the_only("Sec-WebSocket-Protocol") or "").partition(",")
        if protocol != web_socket.PROTOCOL or not self.is_token(token.strip()):
            return self.refuse(403, "a wrong token")
        key = self.the_only("Sec-WebSocket-Key")
        if not key or self.the_only("Sec-WebSocket-Version") != web_socket.VERSION or (self.the_only("Upgrade") or "").lower() != "websocket":
            return self.refuse(400, "no WebSocket is asked for")
        self.close_connection = True
        self.send_response(101)
        told = {"Upgrade": "websocket", "Connection": "Upgrade", "Sec-WebSocket-Accept": web_socket.agreed(key), "Sec-WebSocket-Protocol": protocol}
        for name, value in told.items():
            self.send_header(name, value)
        self.end_headers()
        self.wfile.flush()
        messages = web_socket.WebSocket(self.rfile, self.wfile, MOST_BYTES)
        with contextlib.suppress(web_socket.Over, Ended):
            while self.is_asked():
                body = messages.next()
                if body is not None:
                    self.turn_to(ANSWER)
                    self.answer_message(messages, body)

    def is_asked(self):
        """Waits, as long as it takes, until a message begins; whether it isn't its end."""
        self.turn_to(SOCKET)
        self.connection.settimeout(None)
        is_there = bool(self.rfile.peek(1))
        self.connection.settimeout(self.timeout)
        self.turn_to(BODY)
        return is_there

    def answer_message(self, messages, body):
        """Answers request lines by a text in JSON, with how many frames their session had been pushed or why they are refused; then pieces of
        their frames as they come, and an empty text."""
        try:
            _, pushes, frames = self.frames_of(body)
        except (Refusal, Ended) as why:
            status = why.status if isinstance(why, Refusal) else 503
            self.log_request(status)
            return messages.send((web_socket.TEXT, json.dumps({"error": str(why), "status": status}).encode()))
        self.log_request(200)
        front = [(web_socket.TEXT, json.dumps({"pushed": pushes}).encode())]
        for frame in frames:
            messages.send(*front, *((web_socket.BINARY, piece) for piece in pieces_of(frame)))
            front = []
        return messages.send((web_socket.TEXT, b""))

    def send_catalog(self, _):
        series = [page_rules.told(one) for one in list(self.server.program.catalog.values())]
        self.send_json(200, series, **{page_rules.OFFERS: "sum follow socket"})

    def send_events(self, number):
        """A stream of events, which holds a session: `pushed` with a frame of it, `changed` with the series that changed, `ended` with how
        the program ended, and `closed` where the session is over, and whether it had to give way."""
        session = self.server.sessions.attach(number)
        if session is None:
            return self.refuse(404, "the session isn't open")
        try:
            if not self.server.streams.acquire(blocking=False):
                return self.refuse(503, "too many pages look at this store")
            try:
                self.close_connection = True
                self.head(200, page_rules.EVENTS, {})
                self.send_changes(session)
            finally:
                self.server.streams.release()
        finally:
            self.server.sessions.detach(session)

    def send_changes(self, session):
        program, changes = self.server.program, self.server.changes
        beaten = 0
        while not self.is_left():
            if time.monotonic() - beaten > BEAT:
                beaten = time.monotonic()
                self.wfile.write(page_rules.SIGN_OF_LIFE)
            if program.over.is_set():
                return self.event("ended", str(program.end))
            if session.over.is_set():
                return self.event("closed", session.gave_way)
            self.wfile.flush()
            session.seen, series = changes.since(session.seen, 1)
            while session.pushes:
                self.event("pushed", base64.b64encode(session.pushes.popleft()).decode())
            if series:
                self.event("changed", [page_rules.told(one) for one in series])
                time.sleep(REST)

    def event(self, name, value):
        self.wfile.write(page_rules.event(name, value))
        self.wfile.flush()

    def is_left(self):
        """Whether the browser has closed the connection: nothing else comes on it."""
        ready, _, _ = select.select([self.connection], [], [], 0)
        return bool(ready) and not self.connection.recv(1, socket.MSG_PEEK)

    def log_request(self, code="-", size="-"):
        """Notes a request and the status of its answer, without what stands behind a question mark."""
        if self.server.log and self.command:
            path = re.sub(r"[^!-~]", "?", self.path.partition("?")[0])
            moment = time.strftime("%d/%b/%Y:%H:%M:%S %z")
            self.server.log.write(f'{self.client_address[0]} - - [{moment}] "{self.command} {path}" {int(code)} {size}\n')

    def log_message(self, *_):
        pass


class Server(http.server.ThreadingHTTPServer):
    daemon_threads = True
    request_queue_size = 128
    is_ended = False

    def __init__(self, *words):
        self.connections = Connections()
        super().__init__(*words)

    def service_actions(self):
        if self.is_ended:
            raise SystemExit(0)

    def process_request(self, request, client_address):
        if self.connections.enter(request):
            super().process_request(request, client_address)
        else:
            refuse(request)
            self.shutdown_request(request)

    def shutdown_request(self, request):
        self.connections.leave(request)
        super().shutdown_request(request)

    def handle_error(self, request, client_address):
        # A browser that no longer wants its answer is no fault, nor is a connection that was cut.
        if not isinstance(sys.exc_info()[1], (OSError, ValueError)):
            super().handle_error(request, client_address)
