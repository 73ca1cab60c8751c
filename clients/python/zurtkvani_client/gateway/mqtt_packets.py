"""The packets of MQTT 3.1.1 that a client needs which subscribes and publishes with at most QoS 1."""
import asyncio
import collections
import struct

CONNECT, CONNACK, PUBLISH, PUBACK, SUBSCRIBE, SUBACK, PINGREQ, PINGRESP, DISCONNECT = 1, 2, 3, 4, 8, 9, 12, 13, 14
REFUSED = 0x80  # in a SUBACK
WHY = {1: "it doesn't speak MQTT 3.1.1", 2: "it doesn't take the client's name", 3: "it is busy", 4: "user or password are wrong", 5: "not allowed"}
MOST_PAYLOAD = 2**16  # bytes; of a longer one there is None
PIECE = 2**16

Publish = collections.namedtuple("Publish", "topic payload qos is_retained number")
Answer = collections.namedtuple("Answer", "kind body")


class Bad(Exception):
    """What a broker sent that isn't MQTT."""


def packet(kind, body=b"", flags=0):
    head, length = bytearray([kind << 4 | flags]), len(body)
    while True:
        head.append(length & 127 | (128 if length > 127 else 0))
        length >>= 7
        if not length:
            return bytes(head) + body


def text(words):
    return struct.pack(">H", len(words.encode())) + words.encode()


def connect(client, seconds, user=None, password=None):
    """Opens a session that the broker keeps while the client is away."""
    flags = (0x80 if user is not None else 0) | (0x40 if password is not None else 0)
    names = [word for word in (client, user, password) if word is not None]
    return packet(CONNECT, text("MQTT") + struct.pack(">BBH", 4, flags, seconds) + b"".join(map(text, names)))


def subscribe(number, filters):
    return packet(SUBSCRIBE, struct.pack(">H", number) + b"".join(text(one) + b"\1" for one in filters), 2)


def publish(number, topic, payload):
    return packet(PUBLISH, text(topic) + struct.pack(">H", number) + payload, 2)


def acknowledged(number):
    return packet(PUBACK, struct.pack(">H", number))


async def read(stream):
    """The next packet: a Publish, or another one's kind and body. Raises Bad, and IncompleteReadError at the end."""
    (head,) = await stream.readexactly(1)
    length = await length_of(stream)
    if head >> 4 == PUBLISH:
        return await published(stream, head, length)
    if length > PIECE:
        raise Bad(f"a packet of the kind {head >> 4} has {length:,} bytes")
    return Answer(head >> 4, await stream.readexactly(length))


async def length_of(stream):
    length = 0
    for place in range(4):
        (byte,) = await stream.readexactly(1)
        length |= (byte & 127) << 7 * place
        if byte < 128:
            return length
    raise Bad("a length has more than four bytes")


async def published(stream, head, length):
    qos, count = head >> 1 & 3, struct.unpack(">H", await stream.readexactly(2))[0]
    left = length - 2 - count - (2 if qos else 0)
    if qos > 1 or left < 0:
        raise Bad("a message is cut short, or has a QoS that wasn't asked for")
    topic = (await stream.readexactly(count)).decode("utf-8", "replace")
    number = struct.unpack(">H", await stream.readexactly(2))[0] if qos else None
    if left <= MOST_PAYLOAD:
        return Publish(topic, await stream.readexactly(left), qos, bool(head & 1), number)
    while left:
        left -= len(await stream.readexactly(min(PIECE, left)))
        await asyncio.sleep(0)
    return Publish(topic, None, qos, bool(head & 1), number)


def is_filter(words):
    """Whether a text is a filter of topics: levels between `/`, of which + stands for one and # at the end for all further ones."""
    levels = words.split("/")
    plain = all(level in ("+", "#") or not set(level) & {"+", "#"} for level in levels)
    return bool(words) and len(words.encode()) < 2**16 and "\0" not in words and plain and "#" not in levels[:-1]


def is_topic(words):
    return is_filter(words) and not set(words) & {"+", "#"}


def fits(words, topic):
    """Whether a topic is one of a filter's. A wildcard in front fits no topic that begins with $."""
    levels, names = words.split("/"), topic.split("/")
    if topic.startswith("$") and levels[0] in ("+", "#"):
        return False
    if levels[-1] == "#":
        levels = levels[:-1]
        names = names[: len(levels)]
    return len(levels) == len(names) and all(level in ("+", name) for level, name in zip(levels, names))
