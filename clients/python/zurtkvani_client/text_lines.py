"""The lines of a text in a stream of bytes, one by one or as many at once as are there."""
import codecs
import io

FEW, MANY = 1 << 13, 1 << 16  # bytes that are read at once, for lines one by one and for many


class TextLines:
    """Iterates over the lines, each with the end that it has: a line feed, a carriage return, or both. What isn't of the encoding
    becomes U+FFFD.

    `held` has the whole lines that were read and not given yet, `parts` the beginning of the line behind them.
    """

    def __init__(self, stream, encoding):
        self.stream, self.decoder = stream, codecs.getincrementaldecoder(encoding)("replace")
        self.held, self.parts, self.is_read = io.StringIO(newline=""), [], False

    def __iter__(self):
        while self.fill(FEW):
            yield from self.held

    def many(self):
        """The lines that are there, in one text; an empty one behind the last."""
        self.fill(MANY)
        return self.held.read()

    def put_back(self, text):
        """Takes whole lines, to be given again."""
        self.held = io.StringIO(text, newline="")

    def fill(self, size):
        """Reads until a whole line is held; gives whether one is."""
        while not self.has_held() and not self.is_read:
            data = self.stream.read1(size)
            self.is_read = not data
            text = self.decoder.decode(data, self.is_read)
            # (a line feed may follow a carriage return at the end)
            end = len(text) if self.is_read else max(text.rfind("\n"), text.rfind("\r", 0, -1)) + 1
            if end or self.is_read:
                self.put_back("".join([*self.parts, text[:end]]))
                self.parts = []
            if text[end:]:
                self.parts.append(text[end:])
        return self.has_held()

    def has_held(self):
        at = self.held.tell()
        is_there = bool(self.held.read(1))
        self.held.seek(at)
        return is_there
