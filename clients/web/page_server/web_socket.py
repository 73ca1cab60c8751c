"""A WebSocket (RFC 6455) on a connection whose head was read: messages from a browser, and to it.

No extension of it is agreed on, and each text to the browser is one message.
"""
import base64
import hashlib

PROTOCOL = "chart"  # what the page asks for; behind it stands its token
VERSION = "13"
MORE, TEXT, BINARY, CLOSE, PING, PONG = 0, 1, 2, 8, 9, 10
LAST, MASKED, RESERVED = 0x80, 0x80, 0x70  # bits of the first two bytes of a part
MOST_OF_CONTROL = 125  # bytes of a part that is no data
NAME = b"258EAFA5-E914-47DA-95CA-C5AB0DC85B11"


class Over(Exception):
    """The browser closes it, or sends what no browser does."""


def agreed(key):
    """What a server answers to the key of a browser that asks for a WebSocket."""
    return base64.b64encode(hashlib.sha1(key.encode() + NAME).digest()).decode()


def part(kind, data):
    """A whole message as its bytes."""
    size = len(data)
    if size <= 125:
        length = bytes([size])
    else:
        length = b"\x7e" + size.to_bytes(2, "big") if size < 65536 else b"\x7f" + size.to_bytes(8, "big")
    return bytes([LAST | kind]) + length + data


def unmasked(data, mask):
    size = len(data)
    masks = (mask * (size // 4 + 1))[:size]
    return (int.from_bytes(data, "big") ^ int.from_bytes(masks, "big")).to_bytes(size, "big")


class WebSocket:
    """`incoming` and `outgoing` are files of the connection; a message from the browser has at most so many bytes."""

    def __init__(self, incoming, outgoing, most):
        self.incoming, self.outgoing, self.most = incoming, outgoing, most

    def read(self, size):
        data = self.incoming.read(size)
        if len(data) < size:
            raise Over
        return data

    def send(self, *parts):
        """Sends messages at once, each a kind and its bytes."""
        self.outgoing.write(b"".join(part(*one) for one in parts))
        self.outgoing.flush()

    def next_part(self, most):
        """The kind of a part, whether its message ends with it, and its bytes."""
        first, second = self.read(2)
        size = second & 127
        if size > MOST_OF_CONTROL:
            size = int.from_bytes(self.read(2 if size == 126 else 8), "big")
        kind = first & 15
        if first & RESERVED or not second & MASKED or size > (MOST_OF_CONTROL if kind >= CLOSE else most):
            raise Over
        mask = self.read(4)
        return kind, bool(first & LAST), unmasked(self.read(size), mask)

    def next(self):
        """The bytes of the next message; None where something else came, which is answered."""
        data, is_begun = b"", False
        while True:
            kind, is_last, some = self.next_part(self.most - len(data))
            if kind == CLOSE:
                self.send((CLOSE, some[:2]))
                raise Over
            if kind == PING:
                self.send((PONG, some))
            elif kind in (TEXT, BINARY, MORE) and (kind == MORE) == is_begun:
                data, is_begun = data + some, True
            elif kind != PONG:
                raise Over
            if is_last and (kind < CLOSE or not is_begun):
                return data if is_begun else None
