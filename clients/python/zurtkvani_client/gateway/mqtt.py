"""The client of an MQTT broker: it subscribes with QoS 1, and acknowledges a message once the stores acknowledged its points.

The broker keeps its session while it is away, and sends again what isn't acknowledged: so nothing that a broker took with QoS 1 gets lost by the end
of a gateway, of a run or of a connection. Alarms are published by the same connection.
"""
import asyncio
import contextlib
import ssl
import time

from . import mqtt_packets, mqtt_points, writes_http
from .intake import Outcome, parts_of
from .log import tell
from .mqtt_packets import Publish

FIRST_DELAY, MOST_DELAY = 0.5, 30.0  # seconds until a broker is tried again
MOST_WAITING = 500  # messages that aren't stored; no further ones are read from the broker meanwhile
CONNECT_SECONDS = 20
MOST_PAUSE = 5  # seconds until what the stores didn't take is handed to them again


class Away(Exception):
    """There is no connection, or it has ended: why."""


class Connection:
    """One connection to the broker."""

    def __init__(self, stream, writer, given):
        self.stream, self.writer, self.given = stream, writer, given
        self.number, self.answers = 0, {}  # of the packets that wait for an answer each its future
        self.waiting, self.is_reading, self.heard = asyncio.Queue(MOST_WAITING), True, time.monotonic()

    @classmethod
    async def open(cls, given):
        """Connects. Raises Away, OSError and TimeoutError."""
        password = await asyncio.to_thread(secret, given.password_file) if given.password_file else None
        context = ssl.create_default_context(cafile=given.authority) if given.tls else None
        stream, writer = await asyncio.open_connection(given.host, given.port, ssl=context)
        one = cls(stream, writer, given)
        try:
            writer.write(mqtt_packets.connect(given.client, given.keep_alive // 10**9, given.user, password))
            answer = await mqtt_packets.read(stream)
            if isinstance(answer, Publish) or answer.kind != mqtt_packets.CONNACK or len(answer.body) != 2:
                raise Away("the broker answers with no CONNACK")
            if answer.body[1]:
                raise Away(f"the broker refuses: {mqtt_packets.WHY.get(answer.body[1], answer.body[1])}")
            return one
        except BaseException:
            writer.close()
            raise

    async def asked(self, packet_of):
        """Sends the packet that `packet_of` makes of a number, and waits for its answer's body."""
        while (number := self.number % 65535 + 1) in self.answers:
            self.number = number
        self.number = number
        answer = self.answers[number] = asyncio.get_running_loop().create_future()
        try:
            self.writer.write(packet_of(number))
            return await answer
        finally:
            del self.answers[number]

    async def receive(self):
        """Takes in packets until the connection ends."""
        while True:
            packet = await mqtt_packets.read(self.stream)
            self.heard = time.monotonic()
            if isinstance(packet, Publish):
                self.is_reading = not self.waiting.full()
                await self.waiting.put(packet)
                self.is_reading, self.heard = True, time.monotonic()
            elif packet.kind in (mqtt_packets.PUBACK, mqtt_packets.SUBACK) and len(packet.body) >= 2:
                answer = self.answers.get(int.from_bytes(packet.body[:2], "big"))
                if answer and not answer.done():
                    answer.set_result(packet.body[2:])

    async def watch(self):
        """Asks for signs of life, and ends a connection that gives none."""
        pause = self.given.keep_alive / 10**9 / 2
        while True:
            await asyncio.sleep(pause)
            if self.is_reading and time.monotonic() - self.heard > 3 * pause:
                raise Away("the broker gives no sign of life")
            self.writer.write(mqtt_packets.packet(mqtt_packets.PINGREQ))
            await self.writer.drain()

    async def several(self):
        """The messages that wait, one at least."""
        found = [await self.waiting.get()]
        while not self.waiting.empty():
            found.append(self.waiting.get_nowait())
        return found

    async def acknowledge(self, messages):
        self.writer.write(b"".join(mqtt_packets.acknowledged(one.number) for one in messages if one.qos))
        await self.writer.drain()

    async def close(self):
        for answer in self.answers.values():
            if not answer.done():
                answer.set_exception(Away("the connection ended"))
        with contextlib.suppress(OSError, ssl.SSLError):
            self.writer.write(mqtt_packets.packet(mqtt_packets.DISCONNECT))
            self.writer.close()


def secret(path):
    with open(path, encoding="utf-8") as file:
        return file.read().rstrip("\r\n")


class Broker:
    """Keeps a connection, and makes another one when it ends."""

    def __init__(self, gateway):
        self.gateway, self.given, self.rules = gateway, gateway.given.mqtt, gateway.given.topic
        self.connection, self.away, self.task = None, "it isn't connected yet", None
        self.bad = set()  # topics of which a bad message was told

    def start(self):
        if self.given.host:
            self.task = asyncio.create_task(self._work())

    async def stop(self):
        if self.task:
            self.task.cancel()
            await asyncio.wait({self.task})

    async def publish(self, topic, payload):
        """Publishes a message, and waits until the broker acknowledged it. Raises Away."""
        if self.connection is None:
            raise Away(self.away)
        await self.connection.asked(lambda number: mqtt_packets.publish(number, topic, payload))

    async def _work(self):
        delay = FIRST_DELAY
        while True:
            begun = time.monotonic()
            try:
                await self._live()
            except Exception as why:  # whatever it was, the next connection may do better
                self.away = str(why) or repr(why)
            tell("the broker is away", "warning", host=self.given.host, port=self.given.port, why=self.away)
            delay = FIRST_DELAY if time.monotonic() - begun > MOST_DELAY else min(2 * delay, MOST_DELAY)
            await asyncio.sleep(delay)

    async def _live(self):
        """One connection from its start to its end."""
        async with asyncio.timeout(CONNECT_SECONDS):
            one = await Connection.open(self.given)
        tasks = [asyncio.create_task(work) for work in (one.receive(), one.watch(), self._store(one), self._subscribe(one))]
        self.connection = one
        try:
            # The last one ends by itself; each other end is that of the connection.
            waiting = set(tasks)
            while True:
                done, waiting = await asyncio.wait(waiting, return_when=asyncio.FIRST_COMPLETED)
                for task in done:
                    task.result()
        finally:
            self.connection = None
            for task in tasks:
                task.cancel()
            await asyncio.gather(*tasks, return_exceptions=True)
            await one.close()

    async def _subscribe(self, one):
        filters = list(dict.fromkeys(rule.match for rule in self.rules))
        if filters:
            async with asyncio.timeout(CONNECT_SECONDS):
                granted = await one.asked(lambda number: mqtt_packets.subscribe(number, filters))
            if len(granted) != len(filters):
                raise mqtt_packets.Bad("a SUBACK tells not of each filter")
            for words in [words for words, code in zip(filters, granted) if code == mqtt_packets.REFUSED]:
                tell("the broker refuses a subscription", "error", topic=words)
        tell("the broker is connected", host=self.given.host, port=self.given.port, topics=len(filters))

    async def _store(self, one):
        """Stores what waits, and acknowledges it then."""
        while True:
            messages = await one.several()
            now = time.time_ns()
            while not await self._is_taken(messages, now):
                pass
            await one.acknowledge(messages)
            self.gateway.counts.add("mqtt_messages_total", len(messages))

    async def _is_taken(self, messages, now):
        """Hands the points of messages to the stores. Tells whether all is stored that can be."""
        outcome = Outcome()
        points = (point for message in messages for point in mqtt_points.points(message, self.rules, now, outcome))
        try:
            await writes_http.take(self.gateway, parts_of(points), outcome)
        except writes_http.Failed as why:
            tell("messages wait for the stores", "warning", messages=len(messages), why=why.words)
            await asyncio.sleep(min(why.seconds, MOST_PAUSE))
            return False
        for why in [*outcome.errors, *outcome.reasons]:
            if why not in self.bad and len(self.bad) < 1000:
                self.bad.add(why)
                tell("a message has no point that can be stored", "warning", why=why)
        self.gateway.counts.add("dropped_points_total", outcome.bad)
        return True
