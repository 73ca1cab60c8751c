"""The fields of frames, each tested as soon as it is read, and why no more are."""

MOST = 10**18  # the greatest size of a value
MOST_SLOTS = 2**35


class Stopped(Exception):
    """Why no further picture is drawn."""


class Cut(Stopped):
    """The stream ends within a frame, or before it."""


class Fields:
    """The fields of a stream, each tested as soon as it is read."""

    def __init__(self, stream):
        self.stream = stream
        self.offset = 0  # of the next field

    def number(self, size, least, greatest):
        """The next field, which has to lie from least to greatest; one that may be below 0 is signed."""
        number = int.from_bytes(self.data(size), "big", signed=least < 0)
        self.require(least <= number <= greatest, size)
        return number

    def data(self, size):
        """So many bytes."""
        data = self.stream.read(size)
        self.offset += len(data)
        if len(data) < size:
            raise Cut(f"the stream ends at byte {self.offset}")
        return data

    def require(self, holds, size):
        """Stops unless the rule of the field just read holds."""
        if not holds:
            raise Stopped(f"the field at byte {self.offset - size} breaks its rule")
