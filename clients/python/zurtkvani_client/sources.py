"""Files of readings as people have them, to rows of texts: CSV and its kin, gzip, standard input, and Parquet where pyarrow is there."""
import csv
import gzip
import io
import os
from itertools import chain, islice, repeat
from operator import attrgetter

from .blocks import batches, block_of, lines_in
from .text_lines import TextLines

DELIMITERS = "\t;|,"
HEAD = 1 << 16  # bytes that are looked at for the delimiter


class Unreadable(Exception):
    """Says in words why a file isn't read."""


class Source:
    """The rows of one file, "-" for standard input: `rows` are pairs of a list of texts and a number, of the line or the Parquet row.
    Where it `has_names` the first row surely has those of the columns."""

    def __init__(self, path, delimiter=None, encoding=None):
        self.name = "standard input" if path == "-" else path
        self.raw = io.BufferedReader(io.FileIO(0 if path == "-" else path), HEAD)
        self.size = os.fstat(self.raw.fileno()).st_size if self.raw.seekable() else None
        self.delimiter, self.encoding = delimiter, encoding
        self.stream, self.lines, self.taken = self.raw, None, ()
        self.split = 0  # how many lines were split without the module csv
        self.count, self.given = None, 0  # rows of a Parquet file, which isn't read from its front to its end
        front = self.raw.peek(4)[:4]
        self.has_names = front == b"PAR1"
        if front[:2] == b"\x1f\x8b":
            self.stream = io.BufferedReader(gzip.GzipFile(fileobj=self.raw), HEAD)
        self.rows = self._parquet_rows() if self.has_names else chain.from_iterable(self._text_rows())

    def done(self):
        """The part of the file that was read, from 0 to 1; None where its size isn't known."""
        if self.count:
            return self.given / self.count
        return min(1.0, self.raw.tell() / self.size) if self.size else None

    def close(self):
        self.stream.close()
        self.raw.close()

    def put_back(self, rows):
        """Gives some of `rows` to `blocks` as the first."""
        self.taken = rows

    def blocks(self):
        """What is left of `rows`, by blocks, without rows whose fields are all empty."""
        taken, self.taken = iter(self.taken), ()
        yield from batches(taken)
        if self.has_names:
            yield from batches(self.rows)
            return
        self._read_head()
        while text := self.lines.many():
            block = block_of(text, self.delimiter, self.reader.line_num + self.split + 1)
            if block is None:
                self.lines.put_back(text)
                count = max(text.count(end) for end in "\r\n") or 1
                yield from batches((fields, line + self.split) for fields, line in islice(self.rows, count))
            else:
                self.split += lines_in(text)
                yield block

    def _text_rows(self):
        """Gives its one iterator once it is asked for it."""
        self._read_head()
        yield zip(self.reader, map(attrgetter("line_num"), repeat(self.reader)))

    def _read_head(self):
        """Finds how a text is to be read, and begins to."""
        if self.lines:
            return
        head = self.stream.peek(HEAD)
        if self.encoding is None:
            self.encoding = "utf-16" if head[:2] in (b"\xff\xfe", b"\xfe\xff") else "utf-8-sig"
        if self.delimiter is None:
            self.delimiter = delimiter_of(head.decode(self.encoding, errors="replace"))
        self.lines = TextLines(self.stream, self.encoding)
        self.reader = csv.reader(self.lines, delimiter=self.delimiter)

    def _parquet_rows(self):
        try:
            from pyarrow import parquet
        except ImportError:
            raise Unreadable("it is a Parquet file, and pyarrow, which reads those, isn't installed") from None
        file = parquet.ParquetFile(self.raw)
        self.count = file.metadata.num_rows
        yield file.schema_arrow.names, 0
        for batch in file.iter_batches(batch_size=4096):
            for row in zip(*(column.to_pylist() for column in batch.columns)):
                self.given += 1
                yield ["" if value is None else str(value) for value in row], self.given


def delimiter_of(head):
    """What stands between two fields, by some first lines: of tab, semicolon, bar and comma the one that gives each of them the
    most fields."""
    lines = head.splitlines()
    lines = [line for line in (lines[:-1] or lines)[:20] if line.strip()]
    fewest = {mark: min(map(len, csv.reader(lines, delimiter=mark)), default=1) for mark in DELIMITERS}
    return max(DELIMITERS, key=fewest.get) if max(fewest.values()) > 1 else ","
