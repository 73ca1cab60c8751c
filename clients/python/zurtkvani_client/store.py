"""A store: one run of the program's `serve`, its edits and its sessions; and runs of other commands while that one rests."""
import collections
import contextlib
import operator
import threading
from itertools import chain, islice

from . import timestamps
from .commands import Output
from .decimals import MOST
from .run import Ended, Refused, Run
from .session import HEIGHT, WIDTH, Session
from .set_lines import MOST_VALUES, SetLines
from .store_file import make_store
from .times import whole_time
from .values import whole_numbers

MOST_SENT = 2**31  # bytes to one run of the program, which takes 2^32
BATCH = 4096  # lines between two looks at how many they were

Series = collections.namedtuple("Series", "name start step scale slots")
Checked = collections.namedtuple("Checked", "series values used pages")
Point = collections.namedtuple("Point", "time first least greatest last")
Swept = collections.namedtuple("Swept", "clears used")


class Store:
    """The store in a file. Within a `with` a `PROGRAM PATH serve` edits and draws. A store has one run at a time: so where `values`,
    `to_series`, `check`, `retain` or `sum` has to run a command of its own, that one is ended, and the next request begins another.
    Sessions go on then, with an empty cache. All but `sum` work outside of a `with`, too.

    Several threads may use one object: their requests go one after the other.

    `unit` is what the series' times count since 1970: "seconds", "milliseconds" or "microseconds"; where none is named it is told
    by the size of a series' start.
    """

    def __init__(self, path, program="chart", unit=None):
        self.program, self.path, self.unit = str(program), str(path), unit
        self.run, self.records, self.is_entered = None, {}, False
        self.sessions, self.left, self.numbers = [], [], 0  # those that are open, and the numbers of those to be closed
        self.turn, self.edits = threading.Condition(), collections.Counter()  # of each series how many edits were sent

    @classmethod
    def make(cls, path, size=4 * 2**20, program="chart", unit=None, series=()):
        """Makes a new file a store of so many bytes, 512 KiB or more and less than 16 TiB, with some series, each a name, a start, a
        step and a scale, and gives it. A value takes about 32 bytes. Raises FileExistsError where the file is there."""
        make_store(str(path), size, str(program), series)
        return cls(path, program, unit)

    def __enter__(self):
        with self.turn:
            self._begin()
            self.is_entered = True
        return self

    def __exit__(self, kind, *_):
        with self.turn:
            was_told = self.end
            self.is_entered, self.sessions = False, []
            if self.run:
                self.run.stop()
            self.turn.notify_all()
        if kind is None and not was_told and self.end and self.end.status:
            raise self.end

    @property
    def end(self):
        """How the run ended, as an exception; None while it works or rests, or where there was none."""
        return self.run.end if self.run else None

    def is_running(self):
        return self.is_entered and self.end is None

    def series(self):
        """The series, in the order of their creation."""
        return [self.record(name, fresh=True) for name in self.records] if self.is_running() else self._listed()

    def values(self, name, t0=None, t1=None):
        """The stored values of a series in rising time, one after the other: pairs of a time and a whole number. With two times
        those from t0 on and before t1."""
        window = () if t0 is None and t1 is None else (str(operator.index(t0)), str(operator.index(t1)))
        return self._values(self.shown("export", str(name), *window).lines())

    def to_series(self, name, t0=None, t1=None):
        """The stored values as a Series of pandas: floats, by dates in UTC. With two times, whole numbers or dates, those from t0
        on and before t1."""
        import pandas

        series = self.record(name, fresh=True) if self.is_running() else next((one for one in self._listed() if one.name == name), None)
        unit = self.unit_of(series)
        window = (None, None) if t0 is None and t1 is None else self.window(series, t0, t1)
        times, numbers = [], []
        for time, number in self.values(name, *window):
            times.append(time)
            numbers.append(number / 10**series.scale)
        index = pandas.DatetimeIndex([time * timestamps.UNITS[unit] for time in times], tz="UTC")
        return pandas.Series(numbers, index=index, name=name, dtype="float64")

    def check(self):
        """Reads the whole store, and counts its series, its values, the pages in use and all pages. Raises Ended, with the status
        7, over a damaged one."""
        told = dict(line.split(None, 1) for line in self.shown("check").lines())
        used, _, pages = told["pages"].split()
        return Checked(int(told["series"]), int(told["values"]), int(used), int(pages))

    def retain(self, *rules):
        """Drops old slots by rules, in turn: "before NAME T", "last NAME COUNT" and "free PAGES", as of the command `retain`.
        Gives for each how many clears it made, and how many pages are in use behind them."""
        with self.turn:
            told = self.shown("retain", given="".join(f"{rule}\n" for rule in rules).encode())
            self.edits.update(name.encode() for name in self.records)
            self.turn.notify_all()
        return [Swept(*map(int, line.split()[1:])) for line in told.lines()]

    def sum(self, one, other, a=1, b=1, w=WIDTH, h=HEIGHT, t0=None, t1=None, range="auto"):
        """The chart of a * one + b * other, real values of two series at the times at which both have one, with whole numbers a
        and b. The series have one step, and starts that are a multiple of it apart. Window and range are those of a session's
        `view`; where a time isn't named the window is that in which both have slots."""
        from .sums import draw_sum

        return draw_sum(self, (one, other), (a, b), (w, h), (t0, t1), range)

    def follow(self, name, *words, wait=None, **named):
        """Pictures of a series, by the words of a session's `view`: the first at once, and each further one once this object has
        edited the series again, with all that was edited until then. Where nothing was it waits for an edit of another thread,
        for ever or for so many seconds. It ends behind these, where the store is left, and where it is closed."""
        key = str(name).encode()
        with self.session() as session:
            while True:
                with self.turn:
                    seen, picture = self.edits[key], session.view(name, *words, **named)
                yield picture
                with self.turn:
                    came = self.turn.wait_for(lambda: self.edits[key] != seen or not self.is_running(), wait)
                    if not (came and self.is_entered):
                        return

    def create(self, name, start, step, scale=0):
        """Makes a series without slots. The start may be a date."""
        start = whole_time(start, self.unit or "seconds")
        self.edit("create", name, start, step, scale)
        self.records[name] = Series(name, start, operator.index(step), operator.index(scale), 0)

    def create_from(self, name, values, scale=None, step=None):
        """Makes a series of a Series of pandas whose index has dates, and stores its values, as `put` does. Start and step, in
        the series' unit, are found from the dates, and the scale from the values, where none is named."""
        from .pandas_series import grid_and_scale, readings

        grid, scale = grid_and_scale(values, scale, step, self.unit)
        record = Series(name, grid.start, grid.step, scale, 0)
        found = readings(values, record, self.unit_of(record))  # where they don't fit no series is made
        self.create(*record[:4])
        self.send_edits(lines_of(SetLines(name, grid.step), found))

    def put(self, name, values):
        """Stores a Series of pandas, whose index has dates, at its times: each value goes to the slot that is nearest. Its
        numbers are real values, whole ones too; NaN leaves a slot as it is. Raises ValueError where two values go to one slot, or
        a date lies before the start."""
        from .pandas_series import readings

        record = self.record(name, fresh=True)
        if record is None:
            raise Refused(8, 0, 0)
        lines = SetLines(name, record.step)
        self.send_edits(lines_of(lines, readings(values, record, self.unit_of(record))))

    def append(self, name, values):
        """Puts values behind the last slot: whole numbers, which count the series' last decimal, or floats, which are real
        values; None and NaN are missing ones. Arrays of numpy and Series of pandas are taken, without their index.

        Up to 256 are one edit. Of more each 256 are an edit of their own, and 64 edits are on their way at once: where one is
        refused, as by a full store, some of those behind it may be stored, each at its own time.
        """
        record = self.record(name)
        numbers = whole_numbers(values, record.scale if record else 0)
        if record and not numbers:
            return
        if record is None or len(numbers) <= MOST_VALUES:
            self.edit("append", name, *("-" if number is None else number for number in numbers))
            return
        record = self.record(name, fresh=True)
        self._put_numbers(record, record.start + record.slots * record.step, numbers)
        missing = next((count for count, number in enumerate(reversed(numbers)) if number is not None), len(numbers))
        self.send_edits(f"append {name}{' -' * min(MOST_VALUES, missing - at)}".encode() for at in range(0, missing, MOST_VALUES))

    def set(self, name, time, values):
        """Puts values, as those of `append`, at a time, a whole number or a date, and the slots behind it; None and NaN leave a
        slot as it is."""
        record = self.record(name)
        numbers = whole_numbers(values, record.scale if record else 0)
        time = whole_time(time, self.unit_of(record))
        if record and not numbers:
            return
        if record is None or len(numbers) <= MOST_VALUES and None not in numbers:
            self.edit("set", name, time, *numbers)
        else:
            self._put_numbers(record, time, numbers)

    def clear(self, name, time, count):
        """Makes up to 4,096 slots missing, from a time, a whole number or a date, on."""
        self.edit("clear", name, whole_time(time, self.unit_of(self.records.get(name))), count)

    def session(self, cache=65536):
        """Opens a session, whose client keeps so many coefficients."""
        with self.turn:
            session = Session(self, self.numbers + 1, cache)
            self.answer("open", session.number, cache)
            self.numbers += 1
            self.sessions.append(session)
        return session

    def forget(self, session):
        """Closes a session, with the next request: it asks nothing, so it may come at any moment, as from a finalizer."""
        with self.turn:
            if session in self.sessions:
                self.sessions.remove(session)
                self.left.append(session.number)

    def draw(self, name, *words, **named):
        """The chart of a series, drawn in a session of its own, by the words of a session's `view`."""
        with self.session() as session:
            return session.view(name, *words, **named)

    def points(self, name, columns=WIDTH, t0=None, t1=None):
        """What a series has in each of so many columns of a window, 1 to 4,096: the first, the least, the greatest and the last
        value, exact, as real values, behind the time at which the column begins, a float in the series' unit. A column without a
        value has no point."""
        record = self.record(name, fresh=True)
        t0, t1 = self.window(record, t0, t1)
        with self.session() as session:
            # Each value meets the condition, and a view that has one is answered by the values of its columns.
            line = line_of("view", session.number, name, columns, 1, t0, t1, "auto", "where", f"v >= {-MOST}")
            with self._asking() as run:
                rows = run.answer_rows(line, session.number)
        scale = 10**record.scale if record else 1
        return [Point(t0 + column * (t1 - t0) / columns, *(value / scale for value in values)) for column, *values in rows]

    def record(self, name, fresh=False):
        """The record of a series, None where it isn't known; a fresh one has as many slots as there are now."""
        with self._asking():
            record = self.records.get(name)
            if record and fresh:
                # To clear no slot changes nothing, and tells how many there are.
                frame, _ = self.answer("clear", name, record.start, 0)
                self.records[name] = record = record._replace(slots=frame.slots)
        return record

    def window(self, series, t0, t1):
        """Two times as whole numbers: where one isn't named the series' start, or the time behind its last slot."""
        unit = self.unit_of(series)
        start, end = (series.start, series.start + max(series.slots, 1) * series.step) if series else (0, 1)
        return start if t0 is None else whole_time(t0, unit), end if t1 is None else whole_time(t1, unit)

    def unit_of(self, series):
        """What the times of a series count."""
        return self.unit or (timestamps.unit_of(series.start) if series else "seconds")

    def answer(self, *words):
        """Sends a request of words and whole numbers, and gives its frame and its picture, None where it has none."""
        line = line_of(*words)
        with self._asking() as run:
            return run.answer(line)

    def edit(self, *words):
        """Sends an edit of words and whole numbers, and gives its frame."""
        return self.send_edits([line_of(*words)])

    def send_edits(self, lines):
        """Sends lines of edits, 64 of them ahead of their answers, and gives the last answer. Raises Refused for the first that
        is refused."""
        lines, last = iter(lines), None
        for line in lines:
            with self._asking() as run:
                last = run.answer_edits(self._counted(chain([line], islice(lines, BATCH - 1))))
        return last

    def _counted(self, lines):
        for line in lines:
            self.edits[line.split(b" ", 2)[1]] += 1
            yield line

    def _put_numbers(self, record, time, numbers):
        times = range(time, time + len(numbers) * record.step, record.step)
        self.send_edits(lines_of(SetLines(record.name, record.step), zip(times, numbers)))

    def _listed(self):
        lines = map(str.split, self.shown("list").lines())
        return [Series(name, *map(int, numbers)) for name, *numbers in lines]

    def _values(self, lines):
        try:
            next(lines)  # the names of the columns
            for line in lines:
                time, value = line.split(",")
                # The digits in front of the point and behind it are those of the whole number.
                yield int(time), int(value.replace(".", ""))
        except Ended as end:
            if (end.status, end.place) == (14, 8):
                raise Refused(8, 0, 0) from None
            raise

    @contextlib.contextmanager
    def _asking(self):
        """The run, for requests of one thread. Whoever waits for an edit looks again behind them."""
        with self.turn:
            if not self.is_running():
                raise self.end or ValueError("the store isn't open: use it within a `with`")
            if self.run and self.run.sent > MOST_SENT:
                self._rest()
            if self.run is None:
                self._begin()
            while self.left:
                self.run.answer(line_of("close", self.left.pop()))
            try:
                yield self.run
            finally:
                self.turn.notify_all()

    def _begin(self):
        """Begins a run, in which the sessions that are open go on."""
        self.records = {series.name: series for series in self._listed()}
        self.run, self.left = Run(self.program, self.path), []
        for session in self.sessions:
            self.run.answer(line_of("open", session.number, session.cache))

    def _rest(self):
        """Ends the run, so that another one may work on the store. One that has ended by itself stays."""
        if self.is_running() and self.run:
            self.run.stop()
            if self.run.end.status:
                raise self.run.end
            self.run = None

    def shown(self, *words, given=b""):
        """What a command of its own sends, while the run rests."""
        with self.turn:
            self._rest()
            return Output(self.program, self.path, *words, given=given)


def line_of(*words):
    """A request line of words and whole numbers."""
    line = " ".join(word if isinstance(word, str) else str(operator.index(word)) for word in words).encode()
    if b"\n" in line:
        raise ValueError("a request is one line")
    return line


def lines_of(lines, readings):
    """The `set` lines of readings, pairs of a time and a number or None."""
    for time, number in readings:
        if number is not None:
            line = lines.add(time, number)
            if line:
                yield line
    if last := lines.line():
        yield last
