"""The gateway's client of MQTT, over a small broker of this file: what a message comes to, and that none is acknowledged before it is stored."""
import asyncio
import contextlib
import json
import os
import random
import signal
import socket
import struct
import tempfile
import threading
import time
import unittest

from gateway_server import Gateway, T, require_all
from waiting import until

require_all()

from zurtkvani_client.gateway import configuration, mqtt_packets, mqtt_points  # noqa: E402
from zurtkvani_client.gateway.intake import Outcome  # noqa: E402

SERIES = '[[series]]\nstep = "1s"\nscale = 2\nstart = "2023-01-01"\n'
TOPIC = '[[topic]]\nmatch = "{}"\nname = "{}"\n'
JSON = 'field = "temp"\ntime = "at"\n'


class Broker(threading.Thread):
    """A broker for one client: it sends what it is handed, again where that isn't acknowledged when the client comes back."""

    def __init__(self):
        super().__init__(daemon=True)
        self.listening = socket.create_server(("127.0.0.1", 0))
        self.port = self.listening.getsockname()[1]
        self.free, self.sent, self.number = threading.Lock(), 0, 0
        self.unacknowledged = {}  # by their numbers, which come again behind 65,535: which message it is, its topic and its payload
        self.acknowledged, self.published = [], []
        self.connects = self.pings = 0  # the pings are those of the last connection that were answered
        self.client = self.connect = self.filters = None
        self.is_taking = True  # whether it acknowledges what is published to it
        self.is_alive = True  # whether it answers pings

    def run(self):
        while True:
            try:
                client, _ = self.listening.accept()
            except OSError:
                return
            with client:
                try:
                    self.serve(client)
                except (OSError, EOFError, struct.error):
                    pass
                with self.free:
                    self.client = None

    def serve(self, client):
        file = client.makefile("rb")
        while True:
            (head,), length, place = self.read(file, 1), 0, 0
            while True:
                (byte,) = self.read(file, 1)
                length |= (byte & 127) << place
                place += 7
                if byte < 128:
                    break
            body = self.read(file, length)
            if head >> 4 == 1:
                self.connect, self.connects, self.pings = body, self.connects + 1, 0
                client.sendall(b"\x20\2\1\0")
            elif head == 0x82:
                self.filters = body[2:]
                client.sendall(b"\x90\3" + body[:2] + b"\1")
                with self.free:
                    self.client = client
                    for number, (_, topic, payload) in self.unacknowledged.items():
                        client.sendall(self.message(number, topic, payload, 0x3A))
            elif head >> 4 == 4:
                with self.free:
                    message = self.unacknowledged.pop(struct.unpack(">H", body)[0], None)
                    if message:
                        self.acknowledged.append(message[0])
            elif head >> 4 == 3:
                (count,) = struct.unpack(">H", body[:2])
                self.published.append((body[2 : 2 + count].decode(), json.loads(body[4 + count :])))
                if self.is_taking:
                    client.sendall(b"\x40\2" + body[2 + count : 4 + count])
            elif head >> 4 == 12 and self.is_alive:
                client.sendall(b"\xd0\0")
                self.pings += 1

    @staticmethod
    def read(file, count):
        data = file.read(count)
        if len(data) < count:
            raise EOFError
        return data

    @staticmethod
    def message(number, topic, payload, head=0x32):
        body = mqtt_packets.text(topic) + struct.pack(">H", number) + payload
        return mqtt_packets.packet(head >> 4, body, head & 15)

    def send(self, topic, payload, head=0x32):
        """Sends a message with QoS 1, and gives which one it is, by which it is among those that are acknowledged then."""
        with self.free:
            while (number := self.number % 65535 + 1) in self.unacknowledged:
                self.number = number
            self.number, self.sent = number, self.sent + 1
            self.unacknowledged[number] = self.sent, topic, payload
            if self.client:
                try:
                    self.client.sendall(self.message(number, topic, payload, head))
                except OSError:
                    pass
            return self.sent

    def hang_up(self):
        """Ends the connection, where there is one, and waits until it has ended."""
        with self.free:
            client = self.client
            if client:
                client.shutdown(socket.SHUT_RDWR)
        return until(lambda: self.client is not client or client is None)

    def close(self):
        with contextlib.suppress(OSError):
            self.listening.shutdown(socket.SHUT_RDWR)  # for who waits in `accept`
        self.listening.close()


class Packets(unittest.TestCase):
    def read(self, data):
        async def reading():
            stream = asyncio.StreamReader()
            stream.feed_data(data)
            stream.feed_eof()
            return await mqtt_packets.read(stream)

        return asyncio.run(reading())

    def test_packets_are_read_as_they_are_made(self):
        for size in (0, 1, 127, 128, 16383, 16384, 65536):
            found = self.read(Broker.message(513, "a/b", b"x" * size, 0x33))
            self.assertEqual((found.topic, len(found.payload), found.qos, found.is_retained, found.number), ("a/b", size, 1, True, 513))
        self.assertIsNone(self.read(Broker.message(1, "a", b"x" * 65537)).payload)
        self.assertEqual(self.read(b"\x30\x05\0\1ahi"), mqtt_packets.Publish("a", b"hi", 0, False, None))
        for bad in (b"\x32\2\0\1", b"\x34\7\0\1a\0\1hi", b"\x40\xff\xff\xff\xff\x7f", b"\x40\xff\xff\xff\x7f"):
            with self.assertRaises(mqtt_packets.Bad):
                self.read(bad)
        with self.assertRaises(asyncio.IncompleteReadError):
            self.read(b"\x32\x10\0\1a")

    def test_filters(self):
        for words, fit, others in (
            ("a/b", ["a/b"], ["a", "a/b/c", "a/c"]), ("a/+", ["a/b", "a/"], ["a", "a/b/c"]), ("a/#", ["a", "a/b", "a/b/c"], ["b/a"]),
            ("#", ["a", "a/b"], ["$SYS/a"]), ("+/b", ["a/b", "/b"], ["$SYS/b"]), ("$SYS/#", ["$SYS/a"], ["a"]),
        ):
            self.assertTrue(all(mqtt_packets.fits(words, topic) for topic in fit) and not any(mqtt_packets.fits(words, topic) for topic in others), words)
        self.assertEqual([one for one in ("", "a/#/b", "a+", "a#", "a/b#", "+", "#", "a/+/b/#") if mqtt_packets.is_filter(one)], ["+", "#", "a/+/b/#"])


class Points(unittest.TestCase):
    def of(self, payload, words="", is_retained=False):
        with tempfile.NamedTemporaryFile("w", suffix=".toml") as file:
            file.write('[mqtt]\nhost = "x"\n' + TOPIC.format("a/+", "m") + words)
            file.flush()
            rules, outcome = configuration.read(file.name).topic, Outcome()
        message = mqtt_packets.Publish("a/b", payload, 1, is_retained, 1)
        return [(point.time, point.value) for point in mqtt_points.points(message, rules, 7, outcome)], outcome

    def test_what_payloads_come_to(self):
        for payload, value in ((b"21.50", "21.50"), (b" -1e3\n", "-1e3"), (b"5i", 5), (b"true", 1), (b"f", 0)):
            self.assertEqual(self.of(payload)[0], [(7, value)])
        for payload in (b"nan", b"-inf"):
            found, outcome = self.of(payload)
            self.assertEqual((found, outcome.left_out, outcome.bad), ([], 1, 0))
        for payload in (b"", b"on", b"\xff", b'"5"', b"1 2", None):
            found, outcome = self.of(payload)
            self.assertEqual((found, outcome.left_out, outcome.bad), ([], 0, 1), payload)

    def test_what_objects_come_to(self):
        for payload, found in (
            (b'{"temp": 0.1, "at": 1700000000}', (T * 10**9, "0.1")), (b'{"temp": 12, "at": 1700000000.5}', (T * 10**9 + 5 * 10**8, "12")),
            (b'{"temp": "1.5", "at": "2023-11-14T22:13:20Z"}', (T * 10**9, "1.5")), (b'{"temp": true, "at": "1700000000000"}', (T * 10**9, 1)),
        ):
            self.assertEqual(self.of(payload, JSON)[0], [found])
        self.assertEqual(self.of(b'{"a": {"b": 1e2}}', 'field = "a/b"\n')[0], [(7, "1e2")])
        self.assertEqual(self.of(b'{"temp": null, "at": 1700000000}', JSON)[1].left_out, 1)
        for payload in (b"[", b"5", b"{}", b'{"temp": [1], "at": 1}', b'{"temp": 1}', b'{"temp": 1, "at": "now"}', b'{"temp": 1, "at": true}', b"[" * 9999):
            self.assertEqual(self.of(payload, JSON)[1].bad, 1, payload[:40])

    def test_a_retained_message_without_a_time_of_its_own_is_left_out(self):
        self.assertEqual(self.of(b"1", is_retained=True)[0], [])
        self.assertEqual(len(self.of(b'{"temp": 1, "at": 1}', JSON, is_retained=True)[0]), 1)

    def test_what_is_wrong_with_a_topic_is_named_with_its_line(self):
        broker = '[mqtt]\nhost = "x"\n'
        for text, line, words in (
            (TOPIC.format("a", "b"), 1, "broker"), (broker + TOPIC.format("a/#/b", "b"), 4, "level"), (broker + TOPIC.format("a", ""), 5, "of its own"),
            (broker + 2 * TOPIC.format("a", "b"), 8, "of its own"), (broker + TOPIC.format("a", "b") + 'time = "t"\n', 6, "field"),
            (broker + "client = ''\n", 3, "client"), (broker + 'password_file = "/x"\n', 3, "user"), ('[[alarm]]\nname = "a"\nover = 1\nmqtt = "a"\n', 4, "broker"),
            (broker + '[[alarm]]\nname = "a"\nover = 1\nmqtt = "a/#"\n', 6, "without"), (broker + "tls = 1\n", 3, "tls"),
        ):
            with self.subTest(text), tempfile.NamedTemporaryFile("w", suffix=".toml") as file:
                file.write(text)
                file.flush()
                with self.assertRaises(configuration.Wrong) as caught:
                    configuration.read(file.name)
                self.assertIn(f"line {line}:", str(caught.exception))
                self.assertIn(words, str(caught.exception))


class OverABroker(unittest.TestCase):
    def setUp(self):
        folder = tempfile.TemporaryDirectory()
        self.addCleanup(folder.cleanup)
        self.folder, self.broker = folder.name, Broker()
        self.broker.start()
        self.addCleanup(self.broker.close)

    def over(self, rules, more=""):
        sections = {"mqtt": f'host = "127.0.0.1"\nport = {self.broker.port}\n{more}', "alarms": 'oldest = "36500d"'}
        gateway = Gateway(self.folder, sections, SERIES + rules)
        self.addCleanup(gateway.close)
        gateway.start()
        self.assertTrue(until(lambda: self.broker.client), "the gateway subscribes")
        return gateway

    def object(self, value, at):
        return json.dumps({"temp": value, "at": at}).encode()

    def test_a_message_is_acknowledged_once_it_is_stored(self):
        password = os.path.join(self.folder, "password")
        with open(password, "w") as file:
            file.write("secret\n")
        gateway = self.over(TOPIC.format("plant/+/temp", "temp") + JSON, f'client = "me"\nuser = "u"\npassword_file = "{password}"')
        words = b"".join(map(mqtt_packets.text, ("me", "u", "secret")))
        self.assertEqual(self.broker.connect, mqtt_packets.text("MQTT") + b"\4\xc0\0\x1e" + words)
        self.assertEqual(self.broker.filters, mqtt_packets.text("plant/+/temp") + b"\1")
        first = self.broker.send("plant/a/temp", self.object(1, T))
        self.assertTrue(until(lambda: first in self.broker.acknowledged))
        (child,) = gateway.children()
        os.kill(child, signal.SIGSTOP)
        second = self.broker.send("plant/a/temp", self.object(2, T + 1))
        time.sleep(0.7)
        self.assertNotIn(second, self.broker.acknowledged)
        os.kill(child, signal.SIGCONT)
        self.assertTrue(until(lambda: second in self.broker.acknowledged))
        bad = [self.broker.send("plant/a/temp", payload) for payload in (b"no", b"{}", b"x" * 70_000)] + [self.broker.send("other", b"1")]
        self.assertTrue(until(lambda: set(bad) <= set(self.broker.acknowledged)), "what can't be stored is acknowledged, and told")
        self.assertEqual(sum(event["event"].startswith("a message has no point") for event in gateway.events()), 4)
        self.assertEqual(gateway.metrics()["zurtkvani_gateway_mqtt_messages_total"], 6)
        data = gateway.told_of("query", query='temp{topic="plant/a/temp"}[1d]', time=T + 10)
        self.assertEqual(data["result"][0]["values"], [[T, "1"], [T + 1, "2"]])

    def test_kills_lose_nothing_that_was_acknowledged(self):
        gateway = self.over(TOPIC.format("plant/#", "temp") + JSON, 'keep_alive = "2s"')
        draw, sent, ends = random.Random(2), {}, threading.Event()
        pauses = [0.2 + 0.3 * draw.random() for _ in range(9)]

        def send():
            # As long as the kills take, and at most a thousand messages a second, so that no store is full before.
            while not ends.wait(0.001):
                if len(self.broker.unacknowledged) < 40:
                    at, value = T + len(sent), draw.randrange(1000)
                    sent[at] = value, self.broker.send("plant/x", self.object(value, at))

        def taken():
            return len(self.broker.acknowledged)

        sender = threading.Thread(target=send, daemon=True)
        self.addCleanup(ends.set)
        sender.start()
        self.assertTrue(until(lambda: taken() > 5), "messages are taken")
        for kill, pause in enumerate(pauses):
            time.sleep(pause)
            if kill % 3 == 0:
                gateway.kill()
                self.assertTrue(until(lambda: self.broker.client is None))
                before = taken()
                gateway.start()
            elif kill % 3 == 1:
                gateway.kill_runs()
                before = taken()
            else:
                self.assertTrue(self.broker.hang_up())
                before = taken()
            self.assertTrue(until(lambda: taken() > before + 5), f"messages are taken behind a kill: {before}, {taken()}\n{gateway.told()[-3000:]}")
        ends.set()
        sender.join()
        gateway.kill()
        gateway.start()
        gateway.stop()
        (name,) = gateway.listed()
        stored = {at: float(value) for at, value in gateway.exported(name).items()}
        acknowledged = set(self.broker.acknowledged)
        lost = [at for at, (value, message) in sent.items() if message in acknowledged and stored.get(at) != value]
        self.assertEqual(lost, [])
        self.assertEqual([at for at, value in stored.items() if sent[at][0] != value], [])
        self.assertGreater(len(acknowledged), 50)

    def test_a_broker_that_gives_no_sign_of_life_is_left_and_told(self):
        gateway = self.over(TOPIC.format("a", "b"), 'keep_alive = "4s"')
        self.assertTrue(until(lambda: gateway.ask("/healthz")[0] == 200))
        # Three times the two seconds between two pings are the longest that a connection has without an answer.
        self.assertTrue(until(lambda: self.broker.pings > 4), "a connection stays whose pings are answered")
        self.broker.is_alive, connects = False, self.broker.connects
        self.assertTrue(until(lambda: self.broker.connects > connects and self.broker.client), "one stays not whose pings are answered no more")
        self.broker.close()
        self.broker.hang_up()
        self.assertTrue(until(lambda: gateway.ask("/healthz")[0] == 503))
        self.assertIn(b"mqtt", gateway.ask("/healthz")[1])
        self.assertEqual(gateway.write(f"w v=1 {T}")[0], 204)

    def test_an_alarm_is_published_once_it_can_be(self):
        self.broker.is_taking = False
        gateway = self.over('[[alarm]]\nname = "hot"\nover = 5\nmqtt = "alarms/plant"\n' + TOPIC.format("a", "b"))
        self.assertEqual(gateway.write(f"w v=9 {T}")[0], 204)
        self.assertTrue(until(lambda: len(self.broker.published) == 1))
        self.broker.is_taking = True
        self.assertTrue(self.broker.hang_up())
        self.assertTrue(until(lambda: len(self.broker.published) == 2), "what wasn't acknowledged is published again")
        self.assertEqual(gateway.write(f"w v=1 {T + 1}")[0], 204)
        self.assertTrue(until(lambda: len(self.broker.published) == 3))
        self.assertEqual([(topic, told["state"]) for topic, told in self.broker.published], [("alarms/plant", state) for state in ("begin", "begin", "end")])
        self.assertTrue(until(lambda: json.loads(gateway.ask("/alarms")[1])["untold"] == 0))


if __name__ == "__main__":
    unittest.main()
