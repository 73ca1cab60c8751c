#!/usr/bin/env python3
"""Probes of the WebSocket that serve.py has for a page's requests, over the program that serve_test.py names."""
import json
import os
import signal
import sys
import unittest

sys.dont_write_bytecode = True
from serve_probe import Page, Served

from page_server.web_socket import BINARY, CLOSE, MORE, PING, PONG, TEXT, agreed, part

KEY = "dGhlIHNhbXBsZSBub25jZQ=="
MASK = b"\x01\x82\x03\xf4"


class Client:
    """A WebSocket to a server, and the status that its head was answered with; a header of None isn't sent."""

    def __init__(self, served, **headers):
        self.stream = served.connect()
        own = {
            "Host": served.place, "Origin": f"http://{served.place}", "Upgrade": "websocket", "Connection": "Upgrade", "Sec-WebSocket-Key": KEY,
            "Sec-WebSocket-Version": "13", "Sec-WebSocket-Protocol": f"chart, {served.token}",
        }  # fmt: skip
        own.update({name.replace("_", "-"): value for name, value in headers.items()})
        told = "".join(f"{name}: {value}\r\n" for name, value in own.items() if value is not None)
        self.stream.sendall(f"GET /socket HTTP/1.1\r\n{told}\r\n".encode())
        self.file = self.stream.makefile("rb")
        self.status = int(self.file.readline().split()[1])
        self.head = b"".join(iter(self.file.readline, b"\r\n")).decode()

    def close(self):
        self.file.close()
        self.stream.close()

    def send(self, data, kind=TEXT, is_last=True, mask=MASK):
        whole = part(kind, data)
        front = bytearray(whole[: len(whole) - len(data)])
        front[0] &= 255 if is_last else 127
        front[1] |= 128 if mask else 0
        masked = bytes(byte ^ mask[at % 4] for at, byte in enumerate(data)) if mask else data
        self.stream.sendall(bytes(front) + (mask or b"") + masked)

    def message(self):
        """The kind of the next message and its bytes, or None at the end."""
        front = self.file.read(2)
        if len(front) < 2:
            return None
        size = front[1] if front[1] < 126 else int.from_bytes(self.file.read(2 if front[1] == 126 else 8), "big")
        return front[0] & 127, self.file.read(size)

    def answer(self):
        """What the text in front of an answer tells, and its pieces."""
        told = json.loads(self.message()[1])
        pieces = []
        if "error" not in told:
            pieces = [data for _, data in iter(self.message, (TEXT, b""))]
        return told, pieces

    def ask(self, *lines):
        self.send(b"\n".join(lines))
        return self.answer()


class Sockets(Page):
    def socket(self, **headers):
        client = Client(self.served, **headers)
        self.addCleanup(client.close)
        return client

    def test_the_key_of_the_rfc_is_agreed_on(self):
        self.assertEqual(agreed(KEY), "s3pPLMBiTxaQ9kYGzzhZRbK+xOo=")

    def test_lines_are_answered_as_those_that_are_posted(self):
        client = self.socket()
        self.assertEqual((client.status, f"Sec-WebSocket-Accept: {agreed(KEY)}\r\n" in client.head), (101, True))
        self.assertIn("Sec-WebSocket-Protocol: chart\r\n", client.head)
        lines = b"open %d", b"view %d a 4 4 0 4 auto", b"close %d"
        told, pieces = client.ask(*(one % 1 for one in lines))
        posted = self.served.request(*(one % 1 for one in lines))[1]
        self.assertEqual((told, b"".join(pieces)), ({"pushed": 0}, posted))
        done = [b"\0\0\0\x09\1" + slots.to_bytes(8, "big") for slots in (4, 5)]
        self.assertEqual(client.ask(b"append a 9", b"append a 8")[1], done)

    def test_a_long_answer_comes_in_pieces(self):
        for _ in range(24):
            self.assertEqual(self.served.kinds(b"append a" + b" 7" * 256), [1])
        told, pieces = self.socket().ask(b"values a 0 6147")
        self.assertEqual((told, len(pieces[0]), len(pieces)), ({"pushed": 0}, 16384, 2))
        self.assertEqual(b"".join(pieces), self.served.request(b"values a 0 6147")[1])

    def test_a_message_may_come_in_parts_and_pings_are_answered(self):
        client = self.socket()
        client.send(b"are you there", PING)
        self.assertEqual(client.message(), (PONG, b"are you there"))
        client.send(b"open 1\nop", is_last=False)
        client.send(b"", PING)
        client.send(b"", PONG)
        client.send(b"en 1", MORE)
        self.assertEqual(client.message(), (PONG, b""))
        told, pieces = client.answer()
        self.assertEqual((told, [piece[4] for piece in pieces]), ({"pushed": 0}, [3, 2]))
        client.send(b"\x03\xe8bye", CLOSE)
        self.assertEqual((client.message(), client.message()), ((CLOSE, b"\x03\xe8"), None))

    def test_it_is_told_how_many_frames_were_pushed_before_an_answer(self):
        client = self.socket()
        self.assertEqual(client.ask(b"open 1", b"view 1 a 4 4 0 4 auto", b"follow 1")[0], {"pushed": 0})
        self.served.request(b"set a 0 9")
        self.assertEqual(client.ask(b"zoom 1 0 2")[0], {"pushed": 1})

    def test_who_isnt_the_page_gets_none(self):
        token = self.served.token
        cases = [
            (403, {"Origin": "http://127.0.0.1:1"}), (403, {"Host": "example.org"}), (403, {"Sec_WebSocket_Protocol": None}),
            (403, {"Sec_WebSocket_Protocol": "chart"}), (403, {"Sec_WebSocket_Protocol": f"chart, {token[:-1]}!"}),
            (403, {"Sec_WebSocket_Protocol": token}), (400, {"Upgrade": None}), (400, {"Sec_WebSocket_Key": None}),
            (400, {"Sec_WebSocket_Version": "8"}),
        ]  # fmt: skip
        for wanted, headers in cases:
            self.assertEqual(self.socket(**headers).status, wanted, headers)
        self.assertEqual(self.served.ask("HEAD", "/socket")[0], 404)

    def test_lines_that_arent_taken_are_refused_and_it_goes_on(self):
        client = self.socket()
        for lines in ([b""], [b"\r"], [b"open 1", b""], [b"open 1"] * 65):
            self.assertEqual(client.ask(*lines)[0]["status"], 400, lines[0])
        self.assertEqual(client.ask(b"nothing")[0]["status"], 403)
        self.assertEqual(client.ask(b"open 1" + b" " * 8186)[1][0][4], 2)
        self.assertEqual(client.ask(b"open 1")[1][0][4], 3)

    def test_what_no_browser_sends_ends_it(self):
        cases = [
            lambda client: client.send(b"open 1", mask=None), lambda client: client.send(b"x" * 65537), lambda client: client.send(b"open 1", 3),
            lambda client: client.send(b"open 1", MORE), lambda client: client.send(b"x" * 126, PING), lambda client: client.send(b"open 1", 0x40 | TEXT),
            lambda client: [client.send(b"open", is_last=False), client.send(b"close", BINARY)],
        ]  # fmt: skip
        for number, case in enumerate(cases):
            client = self.socket()
            case(client)
            self.assertIsNone(client.message(), number)

    def test_a_half_message_has_a_deadline_and_an_idle_socket_gives_way(self):
        idle, half = self.socket(), self.socket()
        half.stream.sendall(b"\x81")
        self.assertIsNone(half.message())
        self.assertEqual(idle.ask(b"open 1")[1][0][4], 3)
        more = [self.socket() for _ in range(64)]
        self.assertIsNone(idle.message())
        self.assertEqual(more[-1].ask(b"view 1 a 4 4 0 4 auto")[1][0][4], 5)

    def test_where_the_program_has_ended_that_is_told(self):
        client = self.socket()
        with open(f"/proc/{self.served.process.pid}/task/{self.served.process.pid}/children", encoding="ascii") as file:
            os.kill(int(file.read()), signal.SIGKILL)
        told, _ = client.ask(b"open 1")
        self.assertEqual((told["status"], "status -9" in told["error"]), (503, True))


class Edits(Page):
    words = []

    def test_without_edit_none_is_taken(self):
        client = Client(self.served)
        self.addCleanup(client.close)
        self.assertEqual([client.ask(one)[0]["status"] for one in (b"append a 9", b"sweep last a 1")], [403, 403])
        self.assertEqual(client.ask(b"open 1")[0], {"pushed": 0})


class Logs(Page):
    def test_each_message_is_noted_without_the_token(self):
        log = os.path.join(self.folder, "log")
        self.served.end()
        served = Served(self.store, "--log", log)
        self.addCleanup(served.end)
        client = Client(served)
        self.addCleanup(client.close)
        client.ask(b"open 1")
        client.ask(b"append a 1")
        with open(log, encoding="utf-8") as file:
            text = file.read()
        self.assertEqual([one.partition("] ")[2] for one in text.splitlines()], ['"GET /socket" 101 -', '"GET /socket" 200 -', '"GET /socket" 403 -'])
        self.assertNotIn(served.token, text)


if __name__ == "__main__":
    unittest.main()
