"""One run of the program over a store: lines in, frames out.

The run lists its series when it begins; from then on each edit goes through it, which keeps the catalog up to date, and it is said which
series changed.
"""
import io
import os
import subprocess
import threading

from zurtkvani_client import frames
from zurtkvani_client.page_rules import AT_ONCE, DONE, EDITS, ROWS, VIEW, widen
from zurtkvani_client.run import Listener
from zurtkvani_client.store import Series

CLEARS = slice(5, 7)  # where a Swept frame has their number
CHANGING = (*EDITS, b"sweep")
NO_LINE = b"?"  # it is refused, behind all frames that the lines before it push


class Program:
    """A run of `host`. `changed` is called with each series that edits or sweeps changed, behind their answers, and `pushed` with each
    frame that a session is pushed, before anything else is asked. Raises Ended."""

    def __init__(self, program, store, changed):
        self.catalog, self.changed, self.pushed = {}, changed, lambda frame: None
        pipes = {"stdin": subprocess.PIPE, "stdout": subprocess.PIPE, "stderr": subprocess.PIPE}
        # A session of its own, so that Control-C reaches this process alone.
        self.child = subprocess.Popen([program, store, "host"], AT_ONCE, start_new_session=True, **pipes)
        widen(self.child.stdout)
        self.turn, self.over, self.end = threading.Lock(), threading.Event(), None
        threading.Thread(target=self.listen, args=(Listener(self.child, "host", store),), daemon=True).start()
        listed, _ = frames.accept(frames.Fields(io.BytesIO(self.answer(b"list"))), {})
        self.catalog = {one.name: Series(one.name, one.start, one.step, one.scale, one.slots) for one in listed.series}

    def listen(self, listener):
        """Notes how the program ended, once it has."""
        self.end = listener.end()
        self.over.set()

    def read(self, size):
        data = self.child.stdout.read(size)
        if len(data) < size:
            raise BrokenPipeError
        return data

    def frame(self):
        length = self.read(4)
        return length + self.read(int.from_bytes(length, "big"))

    def answer(self, line):
        return self.answers([line])[0]

    def answers(self, lines):
        """The frames of some lines, one each, of at most MOST_LINES edits or of one other line."""
        may_push = any(line.partition(b" ")[0] in CHANGING for line in lines)
        with self.turn:
            try:
                answers = self.answered([*lines, NO_LINE], self.pushed)[:-1] if may_push else self.answered(lines)
            except (OSError, ValueError):
                self.over.wait()
                raise self.end from None
            changed = {name for names in map(self.note, lines, answers) for name in names}
            series = [self.catalog[name] for name in changed]
        if series:
            self.changed(series)
        return answers

    def answered(self, lines, pushed=None):
        """What lines are answered. Of those that may push, `pushed` is handed the frames of charts, which answer none of them."""
        self.child.stdin.write(b"".join(line + b"\n" for line in lines))
        self.child.stdin.flush()
        answers = []
        while len(answers) < len(lines):
            frame = self.frame()
            (pushed if pushed and frame[4] in (VIEW, ROWS) else answers.append)(frame)
        return answers

    def note(self, line, frame):
        """Keeps in the catalog what an edit did; gives the names of the series that it or a step of a sweep may have changed."""
        words = line.decode(errors="replace").rstrip("\r").split(" ")
        if frame[4] == frames.SWEPT and any(frame[CLEARS]):
            return list(self.catalog) if words[1] == "free" else [words[2]]
        if frame[4] != DONE:
            return []
        _, name, *more = words
        slots = int.from_bytes(frame[5:13], "big")
        known = self.catalog.get(name) or Series(name, *map(int, more), slots)
        self.catalog[name] = known._replace(slots=slots)
        return [name]

    def stop(self):
        """Ends the program as the end of its input does."""
        with self.turn:
            try:
                self.child.stdin.close()
            except OSError:
                pass
        self.over.wait()


def is_built(chart):
    """Whether a `chart` of the repository or of an installation runs a program without building one first."""
    told = subprocess.run([chart, "--version"], stdin=subprocess.DEVNULL, capture_output=True, check=False)
    return told.returncode == 0 and b", to be built\n" not in told.stdout and os.access(chart, os.X_OK)
