"""From frames to pictures: what a client does with the bytes that a chart server sends.

Its rules are those of docs/FORMATS.md: the tables of frames, and "From frames to pictures". `accept` reads one frame from
a stream; whoever calls it keeps the open sessions between two calls. A view can show its covers before it is drawn.
"""
import contextlib
from collections import OrderedDict, namedtuple
from itertools import islice

from .fields import MOST, MOST_SLOTS, Cut, Fields, Stopped  # noqa: F401
from .picture import Picture, height
from .told import read_axis, read_catalog, read_span, read_swept, read_values
from .words import NAMES, numbers_of

DONE, REFUSED, OPENED, CLOSED, VIEW, ROWS, LIVE, CATALOG, VALUES, SWEPT = range(1, 11)
NAMES_SECOND = numbers_of("ViewTooLarge", "Full", "LiveTooLarge")  # the refusals that tell two numbers more
NAMES_FIRST = numbers_of("BadLine", "BadFilter") + NAMES_SECOND  # and those that tell one
# For each kind the length without items, the length of an item, and the most items.
LENGTHS = {
    DONE: (9, 1, 0), REFUSED: (18, 1, 0), OPENED: (9, 1, 0), CLOSED: (5, 1, 0), VIEW: (84, 25, 131072), ROWS: (27, 34, 4096),
    LIVE: (6, 1, 0), CATALOG: (11, 70, 512), VALUES: (16, 8, 6145), SWEPT: (8, 1, 0),
}
REPORTS = {CATALOG: read_catalog, VALUES: read_values, SWEPT: read_swept}


Done = namedtuple("Done", "slots")
Refused = namedtuple("Refused", "number a b")
Opened = namedtuple("Opened", "session cache")
Closed = namedtuple("Closed", "session")
Live = namedtuple("Live", "session on")


class Session:
    """The list of a session: coefficients by series and key, its front at the end."""

    def __init__(self, cache):
        self.cache = cache
        self.held = OrderedDict()

    def renew(self, series, wanted):
        """The list after a view: the wanted keys that it has come to the front, and then the others."""
        keys = sorted(wanted, key=order)
        for key in sorted(keys, key=lambda key: (series, key) not in self.held):
            self.held[series, key] = wanted[key]
            self.held.move_to_end((series, key))
        while len(self.held) > self.cache:
            self.held.popitem(last=False)


def split(span, coefficient):
    """The spans of the halves of a key, None for a half where nothing is stored."""
    flags, dmin, dmax = coefficient
    if flags < 3:
        return (span, None) if flags == 1 else (None, span)
    least, greatest = span
    halves = [(least + max(dmin, 0), greatest + min(dmax, 0)), (least + max(-dmin, 0), greatest + min(-dmax, 0))]
    if not all(-MOST <= low <= high <= MOST for low, high in halves):
        raise Stopped("a coefficient doesn't fit")
    return halves


class View:
    """A View frame behind its session, and what it shows of its series. A key is a pair of level and index."""

    def __init__(self, fields, count):
        self.series = fields.number(2, 0, 511)
        self.w, self.h = fields.number(2, 1, 4096), fields.number(2, 1, 4096)
        self.t0 = fields.number(8, -2 * MOST, 2 * MOST)
        self.t1 = fields.number(8, self.t0 + 1, 2 * MOST)
        self.lo = fields.number(8, -MOST, MOST)
        self.hi = fields.number(8, self.lo, MOST)
        self.start, self.step, self.slots = read_axis(fields)
        self.span = read_span(fields, self.slots)
        self.count = fields.number(4, count, count)
        self.top = next(7 * k for k in range(1, 6) if 128**k >= self.slots)
        self.sent = dict(self.coefficients(fields, count))
        self.first = max(0, -((self.start - self.t0) // self.step))  # the window's slots go from here to below behind
        self.behind = min(self.slots, -((self.start - self.t1) // self.step))

    def coefficients(self, fields, count):
        before = (-self.top - 1, 0)
        for _ in range(count):
            level, index = divmod(fields.number(8, 0, 2**64 - 1), 2**40)
            fields.require(0 < level <= self.top and index < 2 ** (self.top - level) and before < (-level, index), 8)
            before = (-level, index)
            flags = fields.number(1, 1, 3)
            size = 2 * MOST if flags == 3 else 0
            yield (level, index), (flags, fields.number(8, -size, size), fields.number(8, -size, size))

    def draw(self, session):
        self.held, self.wanted = session.held, {}
        self.pieces = {}  # for each column the keys that are left in it, with their spans
        if self.span:
            self.find_pieces((self.top, 0), self.span)
        rows = [self.row(column) for column in self.pieces]
        session.renew(self.series, self.wanted)
        return Picture(self.w, self.h, self.lo, self.hi, rows)

    def column(self, slot):
        return (self.start + slot * self.step - self.t0) * self.w // (self.t1 - self.t0)

    def is_outside(self, key):
        """No slot of the key is in the window."""
        return self.first >= min((key[1] + 1) << key[0], self.behind) or self.behind <= key[1] << key[0]

    def is_in_a_column(self, key):
        """All slots of the key are in one column."""
        first, behind = key[1] << key[0], (key[1] + 1) << key[0]
        return self.first <= first and behind <= self.behind and self.column(first) == self.column(behind - 1)

    def halves(self, key, span):
        """The halves of a wanted key that have a stored value, with their spans."""
        level, index = key
        coefficient = self.sent.get(key) or self.held.get((self.series, key))
        if not coefficient:
            raise Stopped(f"the coefficient of level {level}, index {index} is missing")
        self.wanted[key] = coefficient
        return [((level - 1, half), part) for half, part in enumerate(split(span, coefficient), 2 * index) if part]

    def find_pieces(self, key, span):
        """Splits a key until what is left of it lies within columns, from the left to the right."""
        if self.is_outside(key):
            return
        if self.is_in_a_column(key):
            self.pieces.setdefault(self.column(key[1] << key[0]), []).append((key, span))
            return
        for half, part in self.halves(key, span):
            self.find_pieces(half, part)

    def row(self, column):
        pieces = self.pieces[column]
        least, greatest = min(span[0] for _, span in pieces), max(span[1] for _, span in pieces)
        return column, self.end(*pieces[0], 0), least, greatest, self.end(*pieces[-1], -1)

    def end(self, key, span, side):
        """A value of the height of the first (side 0) or the last (side -1) stored one below a key."""
        while key[0] > 0 and len({height(value, self.lo, self.hi, self.h) for value in span}) > 1:
            key, span = self.halves(key, span)[side]
        return span[0]


    def cover(self, session, taken):
        """Which pixels may be black by the first so many of the sent coefficients, and by those that the session holds of keys that
        lie across the end of a column, as far as their turn has come. It is drawn before the view is."""
        early = dict(islice(self.sent.items(), taken))
        turn = next((order(key) for key in islice(self.sent, taken, None)), (1, 0))

        def told(key):
            if key in self.sent:
                return early.get(key)
            return session.held.get((self.series, key)) if order(key) < turn and not self.is_in_a_column(key) else None

        picture, before = Picture(self.w, self.h, self.lo, self.hi, []), None
        for key, span in self.front((self.top, 0), self.span, told) if self.span else ():
            first, last = max(key[1] << key[0], self.first), min((key[1] + 1) << key[0], self.behind) - 1
            box = [(self.column(first), self.column(last)), tuple(picture.height(value) for value in span)]
            # With the box before, this one is covered too.
            picture.fill_box(*(join(*ends) for ends in zip(box, before or box)))
            before = box
        return picture

    def front(self, key, span, told):
        """The keys that meet the window and show no half of theirs, from the left to the right, with their spans."""
        if self.is_outside(key):
            return
        halves = ()
        if key[0] and (coefficient := told(key)):
            with contextlib.suppress(Stopped):
                halves = [half for half in enumerate(split(span, coefficient), 2 * key[1]) if half[1]]
        if not halves:
            yield key, span
        for half, part in halves:
            yield from self.front((key[0] - 1, half), part, told)


def order(key):
    """Where a key stands among others: by falling level, then by rising index."""
    return -key[0], key[1]


def join(one, other):
    """The least range that holds two."""
    return min(one[0], other[0]), max(one[1], other[1])


class Rows:
    """A Rows frame behind its session."""

    def __init__(self, fields, count):
        self.w, self.h = fields.number(2, 1, 4096), fields.number(2, 1, 4096)
        self.lo = fields.number(8, -MOST, MOST)
        self.hi = fields.number(8, self.lo, MOST)
        fields.number(2, count, min(count, self.w))
        self.rows = []
        column = -1
        for _ in range(count):
            column = fields.number(2, column + 1, self.w - 1)
            first = fields.number(8, -MOST, MOST)
            least = fields.number(8, -MOST, first)
            greatest = fields.number(8, first, MOST)
            self.rows.append((column, first, least, greatest, fields.number(8, least, greatest)))

    def draw(self, _session):
        return Picture(self.w, self.h, self.lo, self.hi, self.rows)


def accept(fields, sessions, before_view=None):
    """Reads a frame and changes the open sessions by it. Gives it with its picture, or with None where it has none. Before a view is
    drawn, `before_view` is called with it and its session."""
    length = fields.number(4, 0, 2**32 - 1)
    counts = {}
    for kind, (own, item, most) in LENGTHS.items():
        if length in range(own, own + item * most + 1, item):
            counts[kind] = (length - own) // item
    if counts.get(VALUES) in (1, 2):
        del counts[VALUES]  # a run of 16 bytes has a value of 8
    fields.require(counts, 4)
    kind = fields.number(1, 0, 255)
    fields.require(kind in counts, 1)
    if kind == DONE:
        return Done(fields.number(8, 0, MOST_SLOTS)), None
    if kind == REFUSED:
        number = fields.number(1, 1, len(NAMES))
        a = fields.number(8, 0, 2**64 - 1 if number in NAMES_FIRST else 0)
        return Refused(number, a, fields.number(8, 0, 2**64 - 1 if number in NAMES_SECOND else 0)), None
    if kind in REPORTS:
        return REPORTS[kind](fields, counts[kind]), None
    session = fields.number(4, 1, 2**32 - 1)
    if kind == OPENED:
        opened = Opened(session, fields.number(4, 1, 131072))
        sessions[session] = Session(opened.cache)
        return opened, None
    live = Live(session, fields.number(1, 0, 1) == 1) if kind == LIVE else None
    chart = View(fields, counts[kind]) if kind == VIEW else Rows(fields, counts[kind]) if kind == ROWS else None
    if session not in sessions:
        raise Stopped(f"session {session} isn't open")
    if live:
        return live, None
    if chart:
        if kind == VIEW and before_view:
            before_view(chart, sessions[session])
        return chart, chart.draw(sessions[session])
    del sessions[session]
    return Closed(session), None
