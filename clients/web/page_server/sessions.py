"""The sessions of the program, of which there are sixteen, and the pages that have them.

A page holds a stream of events for its session. Where that has gone, or there never was one, the session is closed half a minute
behind its last request. Where a page asks for a session and there is none left, the one that was idle longest gives way.
"""
import collections
import threading
import time

from zurtkvani_client import Ended
from zurtkvani_client.page_rules import CLOSED, EDITS, GONE, OPENED, SWEEP, TOO_MANY, UNKNOWN_SESSION, gives_way, number_in, refusal_in


MOST_PUSHES = 64  # that wait for a page


class Session:
    def __init__(self, seen):
        self.seen = seen  # how many changes its page was told, or had been before it was opened
        self.asked, self.streams, self.over, self.gave_way = time.monotonic(), 0, threading.Event(), False
        self.pushes, self.pushed = collections.deque(), 0  # frames that wait for the page's stream, and how many there were in all

    def idle(self):
        return time.monotonic() - self.asked


class Sessions:
    def __init__(self, program, changes):
        self.program, self.changes, self.lock, self.held = program, changes, threading.RLock(), {}
        program.pushed = self.push
        threading.Thread(target=self.sweep, daemon=True).start()

    def answer(self, line):
        """The frame of a line."""
        number = number_in(line)
        if number is None:
            return self.program.answer(line)
        with self.lock:
            frame = self.program.answer(line)
            if refusal_in(frame) == TOO_MANY and self.make_room():
                frame = self.program.answer(line)
            self.note(number, frame)
        return frame

    def answers(self, lines):
        """The frames of some lines, as they come; where all are edits they are stored together."""
        if all(line.partition(b" ")[0] in EDITS for line in lines):
            yield from self.program.answers(lines)
        else:
            yield from map(self.answer, lines)

    def note(self, number, frame):
        if frame[4] == OPENED:
            self.let_go(number)
            self.held[number] = Session(self.changes.count)
        elif frame[4] == CLOSED or refusal_in(frame) == UNKNOWN_SESSION:
            self.let_go(number)
        elif number in self.held:
            self.held[number].asked = time.monotonic()

    def push(self, frame):
        """Keeps what the program pushes to a session until its page's stream sends it. The session of a page that doesn't keep up is over."""
        session = self.held.get(b"%d" % int.from_bytes(frame[5:9], "big"))
        if session and not session.over.is_set():
            session.asked = time.monotonic()
            session.pushed += 1
            session.pushes.append(frame)
            if len(session.pushes) > MOST_PUSHES:
                session.over.set()

    def pushed(self, line):
        """How many frames the session of a line was pushed."""
        session = self.held.get(number_in(line))
        return session.pushed if session else 0

    def let_go(self, number):
        session = self.held.pop(number, None)
        if session:
            session.over.set()

    def close(self, number):
        self.let_go(number)
        self.program.answer(b"close " + number)

    def make_room(self):
        """Closes a session that was idle for long, if there is one; tells whether there was."""
        number = gives_way(self.held)
        if number:
            self.held[number].gave_way = True
            self.close(number)
        return number is not None

    def attach(self, number):
        """The session that a page holds from now on by a stream, or None where it isn't open."""
        with self.lock:
            session = self.held.get(number)
            if session:
                session.streams += 1
            return session

    def detach(self, session):
        with self.lock:
            session.streams -= 1
            session.asked = time.monotonic()

    def sweep(self):
        """Closes, again and again, the sessions whose pages are gone or didn't keep up."""
        while not self.program.over.wait(SWEEP):
            with self.lock:
                gone = [number for number, session in self.held.items() if session.over.is_set() or (session.streams == 0 and session.idle() > GONE)]
                try:
                    for number in gone:
                        self.close(number)
                except Ended:
                    return
