"""All that the gateway knows of the program: one run of `host` over a store, its lines and frames, and when it is started again.

A run takes lines by turns. A turn is up to 64 lines that stand ready at once, so edits among them share commits, and it ends when each
line is answered by its frame. Frames come in the order of the lines.
"""
import asyncio
import contextlib
import fcntl
import io
import itertools
import os
import struct
import time

from .. import client, frames
from ..page_rules import AT_ONCE, EDITS, widen
from ..run import IN_FLIGHT, Ended, Refused, end_of
from ..store import Series
from .log import tell

MOST_FRAME = 4_194_304  # bytes behind a frame's length
READ = 2**18  # bytes that are read at once
DONE_BYTES = 4 + frames.LENGTHS[frames.DONE][0]
SESSION = 1  # the one session of a run; its views have a filter, so its client keeps nothing
OPEN = b"open %d 1" % SESSION
WHOLE = 2  # the number of the session that is open for a view alone, opened before it and closed behind it in one turn
LIST = b"list"
COMMAND = "host"
CHANGING = (*EDITS, b"sweep")  # the words of lines behind which sessions are pushed what they follow
NO_LINE = b"?"  # it is refused, behind all frames that the lines before it push
MOST_SECONDS = 120  # of a turn
FIRST_DELAY, MOST_DELAY = 0.1, 10.0  # seconds until a run that ended is started again
PAUSE = 0.05  # seconds between two looks whether a store is released
SOON = 10.0  # seconds; a run that ends before, and has answered nothing, has ended at once
MOST_SOON = 6  # runs in a row that end at once, before the store is given up
DAMAGED = (7, 12)  # statuses that another run would end with too


class Down(Exception):
    """The store has no run, and gets none: why."""


class Lost(Exception):
    """The run ended before all lines of a turn were answered. Lines of edits may be sent again: done twice, they do what they do once."""


class Held(Ended):
    """No run was started, since another one holds the store. (Of one that is started beside it nobody could tell whether a sync of its own failed,
    where the other one ends just behind it.)"""


class Run:
    """One `PROGRAM PATH host`."""

    def __init__(self, child, path, frames_from):
        self.child, self.path, self.said, self.frames_from = child, path, None, frames_from
        self.answered, self.came = 0, b""  # lines; and what came and isn't a whole frame yet
        self.may_push, self.on_push = False, None  # whether a session was ever followed, and who is handed what one is pushed
        self.listening = asyncio.create_task(self._listen())

    @classmethod
    async def start(cls, program, path):
        pipe = asyncio.subprocess.PIPE
        taken, given = os.pipe()
        widen(taken)
        try:
            # A session of its own, so that Control-C reaches the gateway alone.
            child = await asyncio.create_subprocess_exec(
                program, path, COMMAND, stdin=pipe, stdout=given, stderr=pipe, start_new_session=True, limit=AT_ONCE
            )
        except BaseException:
            os.close(taken)
            raise
        finally:
            os.close(given)
        run = cls(child, path, await reader_of(taken))
        try:
            run.opened, listed = await run.turn([OPEN, LIST])
            run.series = series_of(listed)
        except Lost:
            raise await run.stop() from None
        return run

    async def _listen(self):
        async for line in self.child.stderr:
            said = end_of(line, COMMAND, self.path)
            if said:
                self.said = said
            else:
                tell("the program says", path=self.path, text=line.decode(errors="replace").rstrip())

    async def turn(self, lines):
        """Sends lines, at most 64, and gives the bytes of their frames. Raises Lost; the run is ended then."""
        try:
            async with asyncio.timeout(MOST_SECONDS):
                answers = await self._answers(lines)
            self.answered += len(lines)
            return answers
        except (TimeoutError, ConnectionError) as why:
            with contextlib.suppress(ProcessLookupError):
                self.child.kill()
            raise Lost(str(why) or f"no answer within {MOST_SECONDS} s") from None

    async def _answers(self, lines):
        words = {line.partition(b" ")[0] for line in lines}
        self.may_push = self.may_push or b"follow" in words
        pushes = self.may_push and not words.isdisjoint(CHANGING)
        self.child.stdin.write(b"\n".join([*lines, NO_LINE] if pushes else lines) + b"\n")
        await self.child.stdin.drain()
        if not pushes:
            return await self._frames(len(lines))
        answers = []
        while len(answers) <= len(lines):
            for frame in await self._frames(len(lines) + 1 - len(answers)):
                if frame[4] in (frames.VIEW, frames.ROWS):
                    self.on_push(frame)
                else:
                    answers.append(frame)
        return answers[:-1]

    async def _frames(self, count):
        """The next frames, so many."""
        answers = []
        while True:
            at, came, wanted = 0, self.came, 4
            while len(answers) < count and len(came) - at >= 4:
                wanted = 4 + int.from_bytes(came[at : at + 4], "big")
                if wanted > 4 + MOST_FRAME:
                    raise ConnectionError("the program sends no frames")
                if len(came) - at < wanted:
                    break
                answers.append(came[at : at + wanted])
                at, wanted = at + wanted, 4
            self.came = came[at:]
            if len(answers) == count:
                return answers
            self.came += await self._more(wanted - len(self.came))

    async def _more(self, least):
        """What comes next, so many bytes at least."""
        parts = []
        while least > 0:
            part = await self.frames_from.read(READ)
            if not part:
                raise ConnectionError("the run has ended")
            parts.append(part)
            least -= len(part)
        return b"".join(parts)

    async def end(self):
        """How it ended, once it has."""
        status = await self.child.wait()
        await self.listening
        return self.said or Ended(status, None, COMMAND, self.path)

    async def stop(self, seconds=30):
        """Ends it as the end of its input does, and where that takes too long by a kill. Gives how it ended."""
        self.child.stdin.close()
        try:
            return await asyncio.wait_for(asyncio.shield(asyncio.ensure_future(self.end())), seconds)
        except asyncio.TimeoutError:
            self.child.kill()
            return await self.end()


async def reader_of(pipe):
    """What reads from a pipe, and closes it at its end."""
    reader = asyncio.StreamReader(limit=AT_ONCE)
    await asyncio.get_running_loop().connect_read_pipe(lambda: asyncio.StreamReaderProtocol(reader), os.fdopen(pipe, "rb", 0))
    return reader


class Keeper:
    """Keeps a run over a store: starts it, hands it turns in the order of those who ask, and starts it again when it ends."""

    def __init__(self, program, path):
        self.program, self.path = program, path
        self.run, self.down, self.restarts = None, None, 0
        self.series, self.on_listed = None, None  # what the store had when its last run began, and who is told
        self.on_push = None  # who is handed each frame that a session is pushed
        self.opened = None  # the frame that opened the session
        self.has_worked = False  # whether the last run answered what it was asked
        self.free, self.is_up, self.is_stopping = asyncio.Lock(), asyncio.Event(), False
        self.task, self.turns = None, set()

    async def start(self):
        """Starts the first run, and waits until it stands, or is given up."""
        self.task = asyncio.create_task(self._keep())
        await self.is_up.wait()

    async def ask(self, lines, seconds=30):
        """The frames of lines, of which each 64 are one turn. Raises Down, Lost, and TimeoutError where no run stands in time."""
        answers = []
        for at in range(0, len(lines), IN_FLIGHT):
            async with asyncio.timeout(seconds):
                await self.is_up.wait()
            answers += await self._asked(lines[at : at + IN_FLIGHT])
        return answers

    async def _asked(self, lines):
        """The answers of a turn. Whoever waits for them may be broken off, and the turn goes on, since its answers belong to no later one."""
        waits = [True]
        turn = asyncio.create_task(self._turn(lines, waits))
        self.turns.add(turn)
        turn.add_done_callback(self._done)
        try:
            return await asyncio.shield(turn)
        finally:
            waits.clear()

    def _done(self, turn):
        self.turns.discard(turn)
        if not turn.cancelled():
            turn.exception()

    async def _turn(self, lines, waits):
        async with self.free:
            if not waits:
                return []
            if self.down:
                raise Down(self.down)
            if self.run is None:
                raise Lost("the run has ended")
            run = self.run
            try:
                return await run.turn(lines)
            except Lost:
                if self.run is run:
                    self.is_up.clear()
                raise

    def state(self):
        """Two that are equal, the second one taken between two turns, tell that no turn was done meanwhile. Without a run none equals another."""
        return (self.run, self.run.answered) if self.run else object()

    async def stop(self):
        self.is_stopping = True
        async with self.free:
            if self.run:
                await self.run.stop()
        if self.task:
            await asyncio.wait({self.task}, timeout=40)

    async def _keep(self):
        """Starts runs, one after the other, until one isn't to be started again."""
        soon, delay = 0, FIRST_DELAY
        while not self.is_stopping:
            begun, self.has_worked = time.monotonic(), False
            end = await self._live()
            if self.is_stopping:
                return
            soon = 0 if self.has_worked or time.monotonic() - begun > SOON else soon + 1
            delay = min(2 * delay, MOST_DELAY) if soon else FIRST_DELAY
            why = self._reason_to_give_up(end, soon)
            tell("a run ended", "error" if why else "warning", path=self.path, status=end.status, place=end.place, means=str(end))
            if why:
                self.down = f"{os.path.basename(self.path)}: {why}"
                tell("a store is given up", "error", path=self.path, why=why)
                self.is_up.set()
                return
            self.restarts += 1
            await asyncio.sleep(delay)

    async def _live(self):
        """One run from its start to its end; gives how it ended."""
        try:
            if not await until_released(self.path):
                return Held(6, 0, COMMAND, self.path)
            run = await Run.start(self.program, self.path)
        except Ended as end:
            return end
        except OSError as why:
            return not_started(why, self.path)
        self.run, self.opened, self.series = run, run.opened, run.series
        run.on_push = self.on_push
        self.on_listed(self)
        self.is_up.set()
        tell("a run stands", path=self.path, process=run.child.pid, series=len(self.series))
        end = await run.end()
        self.is_up.clear()
        self.run, self.has_worked = None, run.answered > 1
        return end

    def _reason_to_give_up(self, end, soon):
        if end.status in DAMAGED:
            return str(end)
        # A sync may have failed, and a run behind it would take for stored what never reached the medium: docs/FORMATS.md tells why.
        if end.status == 6 and not isinstance(end, Held) and not is_held(self.path):
            return str(end)
        return f"{MOST_SOON} runs in a row ended at once: {end}" if soon >= MOST_SOON else None


def not_started(why, path):
    """What stands for the end of a run that the system didn't start."""
    end = Ended(127, None, COMMAND, path)
    end.args = (f"the program can't be started: {why}",)
    return end


def is_held(path):
    """Whether another run holds the store. To wait for its end is the one way in which status 6 passes by itself."""
    try:
        with open(path, "rb") as file:
            fcntl.flock(file, fcntl.LOCK_EX | fcntl.LOCK_NB)
            return False
    except BlockingIOError:
        return True
    except OSError:
        return False


async def until_released(path, seconds=10):
    """Waits until no other run holds the store, as one that ends by itself now that its gateway was killed. Tells whether none does."""
    for _ in range(int(seconds / PAUSE)):
        if not is_held(path):
            return True
        await asyncio.sleep(PAUSE)
    return False


def done_or_refused(frame):
    """What an edit was answered: Done or Refused of frames.py."""
    return frames.accept(frames.Fields(io.BytesIO(frame)), {})[0]


def slots_of(frame):
    """How many slots a series has behind an edit, as its frame tells; None where it tells something else."""
    return int.from_bytes(frame[5:], "big") if frame[4] == frames.DONE and len(frame) == DONE_BYTES else None


def refusal_of(frame):
    """The refusal that a frame is, or None."""
    return done_or_refused(frame) if frame[4] == frames.REFUSED else None


def report_of(kind, frame):
    """A report of a kind, as told.py names its fields. Raises Refused."""
    if frame[4] != kind:
        raise Refused(*done_or_refused(frame))
    return frames.accept(frames.Fields(io.BytesIO(frame)), {})[0]


def series_of(frame):
    """The series that a catalog lists."""
    return [Series(one.name, one.start, one.step, one.scale, one.slots) for one in report_of(frames.CATALOG, frame).series]


def pages_of(frame):
    """The pages in use of a store, and all of them, as a catalog tells them."""
    total, used = struct.unpack_from(">II", frame, 5)
    return used, total


def values_of(frame):
    """The stored values that a report of them tells: pairs of a slot and its number. Raises Refused."""
    if frame[4] != frames.VALUES:
        raise Refused(*done_or_refused(frame))
    runs, count = struct.unpack_from(">HH", frame, 16)
    spans = struct.unpack_from(f">{2 * runs}Q", frame, 20)
    slots = itertools.chain.from_iterable(range(first, first + many) for first, many in zip(spans[::2], spans[1::2]))
    return zip(slots, struct.unpack_from(f">{count}q", frame, 20 + 16 * runs))


def view_line(name, columns, height, t0, t1, bounds="auto"):
    """The line of a view whose columns are told by their values. Each value meets its condition."""
    return f"view {SESSION} {name} {columns} {height} {t0} {t1} {bounds} where v >= {-frames.MOST}".encode()


def rows_of(frame):
    """The rows of a view: column, first, least, greatest and last value of each column that has one. Raises Refused."""
    if frame[4] != frames.ROWS:
        raise Refused(*done_or_refused(frame))
    return struct.iter_unpack(">Hqqqq", memoryview(frame)[31:])


def pairs_of(frame, place):
    """Of the rows of a view the columns, each with what stands in one place of its row."""
    return [(row[0], row[place]) for row in rows_of(frame)]


def picture_of(opened, frame):
    """The picture of a view, by the proved client where its library is there."""
    drawn = client.over(io.BytesIO(opened + frame))
    drawn.accept()
    return drawn.accept()[1]
