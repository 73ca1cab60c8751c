"""One run of the chart program over a store: request lines in, frames out, and how it ended."""
import contextlib
import re
import subprocess
import sys
import threading
from itertools import islice

from . import client, frames, words

IN_FLIGHT = 64  # edits that are sent before the first of them has to be answered
SHOWN = 80  # bytes of a line that is told


class Refused(Exception):
    """A request was refused, and changed nothing. docs/LIMITS.md has the numbers, and what `a` and `b` tell."""

    def __init__(self, number, a, b, line=None):
        self.number, self.a, self.b = number, a, b
        self.name = words.NAMES[number - 1]
        # Where the line is no request, it says what the number of a byte doesn't.
        shown = f" of {line[:SHOWN].decode(errors='replace')!r}" if line and self.name == "BadLine" else ""
        super().__init__(words.refusal(number, a, b) + shown)


class Ended(Exception):
    """The program has ended. Where it said no status of its own, `place` is None; a signal's is below 0."""

    def __init__(self, status, place, command="serve", path=None):
        self.status, self.place = status, place
        super().__init__(words.end(status, place, command, path))


def end_of(line, command="serve", path=None):
    """How a line of standard error says that a command over a store ended; None where it says something else."""
    said = re.fullmatch(rb"chart: status (\d+) at (\d+)\n", line)
    return Ended(int(said[1]), int(said[2]), command, path) if said else None


class Listener:
    """Reads what a run says on its standard error: keeps how it says that it ended, and hands on all else at once, as that the program is
    being built."""

    def __init__(self, child, command, path):
        self.child, self.command, self.path, self.said = child, command, path, None
        self.thread = threading.Thread(target=self._listen, daemon=True)
        self.thread.start()

    def _listen(self):
        for line in self.child.stderr:
            said = end_of(line, self.command, self.path)
            if said:
                self.said = said
            else:
                sys.stderr.write(line.decode(errors="replace"))

    def end(self):
        """How the run ended, once it has."""
        status = self.child.wait()
        self.thread.join()
        self.child.stderr.close()
        return self.said or Ended(status, None)


def start(run, **how):
    """Starts a program, the chart program or its wrapper."""
    try:
        return subprocess.Popen(run, **how)
    except (FileNotFoundError, PermissionError) as why:
        reason = f"the chart program can't be run, {why.strerror}: name it, as ./chart of the repository"
        raise type(why)(why.errno, reason, run[0]) from None


class Run:
    """A `PROGRAM PATH serve`. `end` is how it ended, None while it works; `sent` counts the bytes that it was sent."""

    def __init__(self, program, path):
        self.sent, self.end = 0, None
        pipes = {"stdin": subprocess.PIPE, "stdout": subprocess.PIPE, "stderr": subprocess.PIPE}
        # A session of its own, so that Control-C reaches Python alone.
        self.child = start([program, path, "serve"], start_new_session=True, **pipes)
        self.listener = Listener(self.child, "serve", path)
        self.client = client.over(self.child.stdout)

    def answer(self, line):
        """Sends a request line, and gives its frame and picture, None where it has none. Raises Refused and Ended."""
        with self._watched():
            self._send(line + b"\n")
            frame, picture = self._accept()
        if isinstance(frame, frames.Refused):
            raise Refused(*frame, line)
        return frame, picture

    def answer_rows(self, line, session):
        """Sends a session's view with a condition, and gives the rows of its frame, of which no client keeps anything."""
        with self._watched():
            self._send(line + b"\n")
            frame, _ = frames.accept(frames.Fields(self.child.stdout), {session: frames.Session(1)})
        if isinstance(frame, frames.Refused):
            raise Refused(*frame)
        return frame.rows

    def answer_edits(self, lines):
        """Sends edits, up to 64 ahead of their answers, and gives the last answer, None where there are no lines.

        Raises Refused for the first that is refused. None is sent then any more; those that were sent behind it, 63 at most, may be done.
        """
        lines, waiting, last, refused = iter(lines), [], None, None
        with self._watched():
            while True:
                part = [] if refused else list(islice(lines, IN_FLIGHT // 2))
                if part:
                    self._send(b"\n".join(part) + b"\n")
                # The program works on this part while the answers to the one before are read and the next one is made.
                for line in waiting:
                    last, _ = self._accept()
                    refused = refused or ((*last, line) if isinstance(last, frames.Refused) else None)
                waiting = part
                if not part:
                    break
        if refused:
            raise Refused(*refused)
        return last

    @contextlib.contextmanager
    def _watched(self):
        """Ends the run where requests are broken off, since what the program may still answer belongs to no later one."""
        if self.end:
            raise self.end
        try:
            yield
        except BaseException as why:
            self.stop()
            if isinstance(why, (BrokenPipeError, frames.Cut)):
                raise self.end from None
            raise

    def _accept(self):
        """The next frame, and its picture."""
        return self.client.accept()

    def _send(self, data):
        self.sent += len(data)
        self.child.stdin.write(data)
        self.child.stdin.flush()

    def stop(self):
        """Ends the program as the end of its input does."""
        if self.end is None:
            for stream in (self.child.stdin, self.child.stdout):
                try:
                    stream.close()
                except OSError:
                    pass
            self.end = self.listener.end()
