"""The connections of a server: at most so many, each with a deadline for what it does now.

A connection on which no whole head of a request came yet gives way where there are too many, and so does a WebSocket on which nothing is
asked, the oldest first. So neither browsers that keep their connections open nor half requests shut anybody out.
"""
import contextlib
import socket
import threading
import time

MOST = 64
WAITING, HEAD, BODY, ANSWER, SOCKET = "waiting", "head", "body", "answer", "socket"
SECONDS = {WAITING: 60, HEAD: 10, BODY: 10, ANSWER: None, SOCKET: None}
TOO_MANY = b"HTTP/1.1 503 Service Unavailable\r\nConnection: close\r\nRetry-After: 5\r\nContent-Length: 0\r\n\r\n"


class Connection:
    def __init__(self, stream):
        self.stream = stream
        self.turn_to(WAITING)

    def turn_to(self, state):
        self.state, self.since = state, time.monotonic()

    def is_late(self):
        return SECONDS[self.state] is not None and time.monotonic() - self.since > SECONDS[self.state]

    def cut(self):
        # The thread that reads from it finds its end, and lets it go.
        with contextlib.suppress(OSError):
            self.stream.shutdown(socket.SHUT_RDWR)


class Connections:
    def __init__(self):
        self.lock, self.held = threading.Lock(), {}
        threading.Thread(target=self.watch, daemon=True).start()

    def enter(self, stream):
        """Whether there is room for a connection, also by one that gives way."""
        with self.lock:
            if len(self.held) >= MOST and not self.make_room():
                return False
            self.held[stream] = Connection(stream)
            return True

    def make_room(self):
        waiting = [one for one in self.held.values() if one.state in (WAITING, HEAD, SOCKET)]
        if waiting:
            oldest = min(waiting, key=lambda one: one.since)
            del self.held[oldest.stream]
            oldest.cut()
        return bool(waiting)

    def turn_to(self, stream, state):
        """Says what a connection does from now on."""
        with self.lock:
            if stream in self.held:
                self.held[stream].turn_to(state)

    def leave(self, stream):
        with self.lock:
            self.held.pop(stream, None)

    def watch(self):
        while True:
            time.sleep(0.5)
            with self.lock:
                for one in self.held.values():
                    if one.is_late():
                        one.cut()


def refuse(stream):
    """Tells a browser that there are too many connections."""
    with contextlib.suppress(OSError):
        stream.settimeout(1)
        stream.sendall(TOO_MANY)
