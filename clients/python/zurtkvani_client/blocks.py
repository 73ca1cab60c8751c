"""Rows of a file that follow each other, by columns."""
from itertools import islice
from operator import itemgetter

MOST_ROWS = 2048
MOST_SIGNS = 1 << 17  # of a text that is split without the module csv, which takes no longer field


class Rows:
    """Rows as lists of texts, which may differ in length, and the numbers of their lines, which rise."""

    def __init__(self, rows, lines):
        self.rows, self.lines = rows, lines
        widths = set(map(len, rows)) or {0}
        self.fewest, self.most = min(widths), max(widths)  # fields of a row

    def __len__(self):
        return len(self.lines)

    def width(self, at):
        """How many fields a row has."""
        return len(self.rows[at])

    def column(self, index):
        """The texts of a column that each row has."""
        return list(map(itemgetter(index), self.rows))

    def only(self, kept):
        """The rows of some indices."""
        rows = self.rows
        return Rows([rows[at] for at in kept], [self.lines[at] for at in kept])

    def without_empty(self):
        """The rows of which a field has a text."""
        return self if all(map(any, self.rows)) else self.only([at for at, fields in enumerate(self.rows) if any(fields)])


class Table(Rows):
    """Rows of one length, as one list of their texts."""

    def __init__(self, fields, width, lines):
        self.fields, self.lines = fields, lines
        self.fewest = self.most = width

    @property
    def rows(self):
        return [self.fields[at : at + self.most] for at in range(0, len(self.fields), self.most)]

    def width(self, at):
        return self.most

    def column(self, index):
        return self.fields[index :: self.most]


def batches(pairs):
    """The rows of pairs of a list of texts and a number, some at once; those in front of a fault come before it is raised."""
    fault, part = None, [None]
    while part and not fault:
        part = []
        try:
            part.extend(islice(pairs, MOST_ROWS))
        except Exception as why:
            fault = why
        if part:
            yield Rows(*map(list, zip(*part))).without_empty()
    if fault:
        raise fault


def lines_in(text):
    """How many lines a text has, whose ends are line feeds, or the same behind carriage returns."""
    return text.count("\n") + (not text.endswith("\n"))


def block_of(text, delimiter, first):
    """The rows of whole lines, of which the first has a number; None where it takes the module csv to tell them: where there are quotes,
    or other ends of lines."""
    text = text.replace("\r\n", "\n")
    if len(text) > MOST_SIGNS or delimiter in '"\r\n' or any(mark in text for mark in '"\r\0'):
        return None
    text = text[:-1] if text.endswith("\n") else text
    width, lines = text.partition("\n")[0].count(delimiter) + 1, range(first, first + lines_in(text))
    if is_even(text, delimiter, width, len(lines)):
        return Table(text.replace("\n", delimiter).split(delimiter), width, lines)
    return Rows([line.split(delimiter) for line in text.split("\n")], lines).without_empty()


def is_even(text, delimiter, width, count):
    """Whether each line has as many fields, and none is empty but for delimiters."""
    mark = delimiter.encode()
    if len(mark) > 1 or f"\n{delimiter * (width - 1)}\n" in f"\n{text}\n":
        return False
    others = bytes(sign for sign in range(256) if sign not in mark + b"\n")
    marks = text.encode(errors="ignore").translate(None, others)
    return marks == b"\n".join([mark * (width - 1)] * count)
