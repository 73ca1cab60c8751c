"""InfluxDB's line protocol, as points: `measurement,tag=value field=1.5,other=2i 1700000000000000000`.

A point is of the series whose name is the measurement and the field, and whose labels are the tags.
"""
import contextlib
import re

from ..scales import MOST_SCALE
from .intake import Column, Point, parts_of
from .labels import NAME, key_of

PRECISIONS = {
    "": 1, "n": 1, "ns": 1, "u": 10**3, "us": 10**3, "µ": 10**3, "ms": 10**6, "s": 10**9, "m": 60 * 10**9, "h": 3600 * 10**9,
}
LINE = re.compile(r'((?:[^\\ ]|\\.)+) +((?:"(?:[^"\\]|\\.)*"|[^\\ "]|\\.)+)(?: +(\S+))? *', re.DOTALL)
FIELD = re.compile(r'((?:[^\\,= "]|\\.)+)=("(?:[^"\\]|\\.)*"|[^\\,= "]+)(?:,|\Z)', re.DOTALL)
PART = re.compile(r"(?:[^\\,]|\\.)+", re.DOTALL)
TAG = re.compile(r"((?:[^\\=]|\\.)+)=((?:[^\\=]|\\.)+)", re.DOTALL)
ESCAPED = re.compile(r"\\([,= ])")
QUOTE = re.compile(r'(?<!\\)(?:\\\\)*"')
NUMBER = re.compile(r"-?(?:\d+\.?\d*|\.\d+)(?:[eE][+-]?\d+)?", re.ASCII)
INTEGER = re.compile(r"(-?\d+)[iu]", re.ASCII)
TIME = re.compile(r"-?\d{1,19}", re.ASCII)
TRUTHS = {**dict.fromkeys(("t", "T", "true", "True", "TRUE"), 1), **dict.fromkeys(("f", "F", "false", "False", "FALSE"), 0)}
NO_NUMBER = {"nan", "inf", "+inf", "-inf", "infinity"}
# Texts, each with a space behind it, that are all numbers without an exponent, or all whole ones as `5i`.
NUMBERS = re.compile(r"(?:-?\d++(?:[.]\d*+)? )++", re.ASCII)
INTEGERS = re.compile(r"(?:-?\d++[iu] )++", re.ASCII)
# For each number of decimals the texts, each with a space behind it, that have so many; and the same where behind each a time stands.
FIXED = [rf"-?(?:0|[1-9]\d{{0,{17 - scale}}})" + (rf"[.]\d{{{scale}}} " if scale else " ") for scale in range(MOST_SCALE + 1)]
VALUES = [re.compile(f"(?:{one})++", re.ASCII) for one in FIXED]
VALUES_AND_TIMES = [re.compile(rf"(?:{one}\d{{1,19}} )++".encode()) for one in FIXED]
UNPLAIN = (b"\\", b'"', b"#", b"\r", b"\t")  # signs of lines that need a closer look
PIECE = 2**18  # bytes of a body that are read before others have their turn
MOST_JOINED = 2**16  # bytes of a line with line feeds within its texts
MOST_KEPT, MOST_HEAD = 50_000, 500  # heads that are remembered, and signs of one
SHOWN = 200  # bytes of a bad line that an answer shows


class Bad(Exception):
    """Why a line is no point."""


class Reader:
    """Reads bodies. Heads are remembered, since the same series come again and again."""

    def __init__(self, database_label, separator):
        self.database_label, self.separator = database_label, separator
        self.keys = {}

    def parts(self, body, database, precision, now, outcome):
        """The points of a body, as parts of columns. Pieces of plain lines are read column by column, and all else line by line."""
        if b'"' in body:
            yield from parts_of(self.points(body, database, precision, now, outcome))
            return
        at = 0
        while at < len(body):
            end = len(body)
            if end - at > PIECE:
                end = body.rfind(b"\n", at, at + PIECE)
                end = body.find(b"\n", at + PIECE) if end < 0 else end
                end = len(body) if end < 0 else end
            piece, at = body[at:end].rstrip(b"\n"), end + 1
            columns = self.columns(piece, database, PRECISIONS[precision])
            if columns is None:
                yield from parts_of(self.points(piece, database, precision, now, outcome))
            else:
                yield columns

    def columns(self, piece, database, size):
        """The columns of lines that are all plain: one space on each side of the fields, numbers without an exponent, and the same fields in all
        lines of a head. None where they aren't: then each line is read by itself."""
        if found := of_one_series(piece):
            head, name, times, *values = found
            with contextlib.suppress(Bad):
                return [Column(*self.key(head, name, database), times, *values, size)]
            return None
        if piece.count(b" ") != 2 * piece.count(b"\n") + 2 or any(sign in piece for sign in UNPLAIN):
            return None
        try:
            words = piece.decode().replace("\n", " \n ").split(" ")
            heads, fields, times, ends = (words[at::4] for at in range(4))
            # Three words of each line, and behind them its end: so no line has another number of words.
            if ends.count("\n") != len(ends) or not are_digits(times):
                return None
            times, series = list(map(int, times)), round_in(heads)
            if series and (found := decimals_of(fields)):
                name, values, decimals = found
                part = len(series)
                columns = [
                    Column(*self.key(head, name, database), times[at::part], values[at::part], decimals, size) for at, head in enumerate(series)
                ]
            else:
                columns = list(self.by_head(by_head(heads, fields, times, series), database, size))
        except (ValueError, TypeError, Bad):
            return None
        # Of two columns of one series it isn't known which of their points came last.
        return columns if len({column.key for column in columns}) == len(columns) else None

    def by_head(self, found, database, size):
        """The columns of heads, each with the fields and the times of its lines."""
        for head, (fields, times) in found.items():
            for name, values in columns_of(fields):
                yield Column(*self.key(head, name, database), times, values, None, size)

    def points(self, body, database, precision, now, outcome):
        """The points of a body, one by one, and None for a line or a field that is none. What is no point, and what is left out, is told by the
        outcome."""
        size = PRECISIONS[precision]
        for line in whole_lines(body.decode("utf-8", "surrogateescape")):
            if not line or line[0] == "#":
                yield None
                continue
            try:
                yield from self.line(line, database, size, now, outcome)
            except Bad as why:
                outcome.fail(f"unable to parse '{shown(line)}': {why}")
                yield None

    def line(self, line, database, size, now, outcome):
        head, fields, time = pieces(line)
        if time is None:
            time = now
        elif TIME.fullmatch(time):
            time = int(time) * size
        else:
            raise Bad("bad timestamp")
        # Where one field of a line is bad none of it is taken.
        found = [(name, value_of(text)) for name, text in fields_of(fields)]
        for name, value in found:
            if value is None:
                outcome.left_out += 1
                yield None
            else:
                yield Point(*self.key(head, name, database), time, value)

    def key(self, head, field, database):
        """The labels of a field's series, and its measurement."""
        found = self.keys.get((head, field, database))
        if found is None:
            measurement, tags = self.head(head, database)
            found = key_of({**tags, NAME: measurement + self.separator + unescaped(field)}), measurement
            if len(self.keys) >= MOST_KEPT:
                self.keys.clear()
            if len(head) < MOST_HEAD:
                self.keys[head, field, database] = found
        return found

    def head(self, head, database):
        measurement, *parts = PART.findall(head)
        tags = {}
        for part in parts:
            match = TAG.fullmatch(part)
            if not match:
                raise Bad("missing tag value")
            name, value = unescaped(match[1]), unescaped(match[2])
            if name in tags:
                raise Bad("duplicate tags")
            if name == NAME or name == self.database_label and database:
                raise Bad(f"the tag {name} is the gateway's own; database_label of its configuration names another one")
            tags[name] = value
        if self.database_label and database:
            tags[self.database_label] = database
        if head[-1:] == "," or head[:1] == ",":
            raise Bad("missing tag key" if head[-1:] == "," else "missing measurement")
        return unescaped(measurement), tags


def are_digits(times):
    joined = "".join(times)
    return joined.isascii() and joined.isdecimal() and max(map(len, times)) <= 19


def round_in(heads):
    """The different heads that follow each other again and again, as where a collector sends a round of its series, time by time; else None."""
    found, count = heads[: heads.index(heads[0], 1) if heads.count(heads[0]) > 1 else None], len(heads)
    size = len(found)
    return found if len(set(found)) == size and (found * (count // size + 1))[:count] == heads else None


def decimals_of(fields):
    """Of fields that all have one name, and values of as many decimals: the name, the values as whole numbers, and how many decimals these are. None
    where they aren't so, or may be too large."""
    name, sign, value = fields[0].partition("=")
    decimals, text = len(value.partition(".")[2]), f" {' '.join(fields)} ".replace(f" {name}{sign}", " ")
    if not name or not sign or decimals > MOST_SCALE or not VALUES[decimals].fullmatch(text, 1):
        return None
    return name, list(map(int, text.replace(".", "").split())), decimals


def of_one_series(piece):
    """The same of lines that all have one head too: this head, the name, the times, the values and their decimals. None where they aren't so."""
    start = piece[: piece.find(b"=", piece.find(b" ")) + 1]
    head, space, name = start[:-1].partition(b" ")
    if not head or not name or b" " in name or b"\n" in start or any(sign in start for sign in UNPLAIN):
        return None
    decimals = len(piece[len(start) : piece.find(b" ", len(start))].partition(b".")[2])
    text = b"%b " % (b"\n" + piece).replace(b"\n" + start, b" ")
    if decimals > MOST_SCALE or not VALUES_AND_TIMES[decimals].fullmatch(text, 1):
        return None
    try:
        head, name = head.decode(), name.decode()
    except UnicodeDecodeError:
        return None
    numbers = list(map(int, text.replace(b".", b"").split()))
    return head, name, numbers[1::2], numbers[::2], decimals


def by_head(heads, fields, times, series):
    """For each head the fields and the times of its lines, whose heads are some series again and again, or None."""
    if series:
        return {head: (fields[at :: len(series)], times[at :: len(series)]) for at, head in enumerate(series)}
    found = {}
    for head, field, time in zip(heads, fields, times):
        if head in found:
            fields_of_head, times_of_head = found[head]
            fields_of_head.append(field)
            times_of_head.append(time)
        else:
            found[head] = [field], [time]
    return found


def columns_of(fields):
    """Of the fields of lines that all have the same names, pairs of a name and the values. Raises ValueError where they aren't so, and Bad."""
    for cells in zip(*[field.split(",") for field in fields], strict=True) if "," in fields[0] else [fields]:
        name, sign, _ = cells[0].partition("=")
        start = name + sign
        size = len(start)
        values = [cell[size:] for cell in cells]
        if not name or not sign or "" in values or "\n".join(cells) != start + ("\n" + start).join(values):
            raise ValueError
        joined = " ".join(values) + " "
        if INTEGERS.fullmatch(joined):
            values = list(map(int, joined.replace("i", "").replace("u", "").split()))
        elif not NUMBERS.fullmatch(joined):
            values = list(map(value_of, values))
            if None in values:
                raise ValueError
        yield name, values


def whole_lines(text):
    """The lines of a body. A line feed within a quoted text ends no line."""
    joined, at = "", 0
    while at <= len(text):
        end = text.find("\n", at)
        end = len(text) if end < 0 else end
        line, at = joined + text[at:end], end + 1
        if '"' in line and line[0] != "#" and len(QUOTE.findall(line)) % 2 and len(line) < MOST_JOINED:
            joined = line + "\n"
            continue
        joined = ""
        yield line.strip(" \r\t")
    if joined:
        yield joined.strip()


def pieces(line):
    """The measurement with its tags, the fields, and the time or None."""
    if not line.isascii() and any("\ud800" <= sign <= "\udfff" for sign in line):
        raise Bad("invalid UTF-8")
    if "\\" not in line and '"' not in line:
        parts = [part for part in line.split(" ") if part]
        if len(parts) == 3:
            return parts
        if len(parts) == 2:
            return *parts, None
    match = LINE.fullmatch(line)
    if not match:
        raise Bad("missing fields" if " " not in line else "invalid field format")
    return match.groups()


def fields_of(text):
    """The names of fields and the texts of their values."""
    if "\\" not in text and '"' not in text:
        pairs = [part.partition("=")[::2] for part in text.split(",")]
        if all(name and value and "=" not in value for name, value in pairs):
            return pairs
    at, pairs = 0, []
    while at < len(text):
        match = FIELD.match(text, at)
        if not match:
            raise Bad("invalid field format")
        pairs.append(match.groups())
        at = match.end()
    if not pairs or text[-1] == ",":
        raise Bad("missing fields")
    return pairs


def value_of(text):
    """The value of a field: a text of a number, or a whole number; None for what a series can't keep, as words."""
    if NUMBER.fullmatch(text):
        return text
    if match := INTEGER.fullmatch(text):
        return int(match[1])
    if text in TRUTHS:
        return TRUTHS[text]
    if text[0] == '"' or text.lower() in NO_NUMBER:
        return None
    raise Bad("invalid number")


def unescaped(text):
    return ESCAPED.sub(r"\1", text) if "\\" in text else text


def shown(line):
    line = "".join(sign if sign.isprintable() else "?" for sign in line[: SHOWN + 1])
    return line if len(line) <= SHOWN else line[:SHOWN] + ".."
