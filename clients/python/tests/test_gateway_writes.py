"""What is written to a gateway is what is stored."""
import gzip
import http.client
import json
import os
import random
import unittest
import zlib
from decimal import Decimal

from gateway_server import OverAGateway, T, require_all
from waiting import SECONDS
from test_gateway_points import message_of

require_all()


class Writes(OverAGateway):
    def test_line_protocol(self):
        self.require_written(f"w a=1.005,b=2i {T}\nw a=1.5 {T + 1}\nw a=1.75 {T + 1}\nw,room=x a=-3 {T + 7}")
        self.assertEqual(self.gateway.stop(), 0)
        listed = self.gateway.listed()
        self.assertEqual(len(listed), 3)
        self.assertEqual(self.gateway.exported("w_a"), {T: "1.00", T + 1: "1.75"})
        self.assertEqual(self.gateway.exported("w_b"), {T: "2.00"})
        self.assertEqual(self.gateway.exported(next(name for name in listed if name not in ("w_a", "w_b"))), {T + 7: "-3.00"})

    def test_partial_errors_are_as_those_of_influxdb(self):
        self.assertEqual(self.gateway.write("w"), (400, '{"error":"unable to parse \'w\': missing fields"}\n'))
        status, text = self.gateway.write(f"w a=1 {T}\nw a=x {T}\nw b=2 {T}")
        self.assertEqual((status, json.loads(text)["error"]), (400, f"partial write: unable to parse 'w a=x {T}': invalid number dropped=0"))
        status, text = self.gateway.write(f"w a=1 {T - 10**8}\nw a=1e20 {T}\nw c=4 {T}")
        self.assertEqual(status, 400)
        self.assertRegex(json.loads(text)["error"], r"^partial write: .*before the series' start.* dropped=2$")
        status, text = self.gateway.write("w a=x", path="/api/v2/write?bucket=&precision=s")
        self.assertEqual((status, json.loads(text)["code"]), (400, "invalid"))
        self.assertEqual(self.gateway.write('w a="text",b=nan', ), (204, ""))
        self.assertEqual(self.gateway.metrics()["zurtkvani_gateway_left_out_total"], 2)
        self.gateway.stop()
        self.assertEqual([self.gateway.exported(name)[T] for name in ("w_a", "w_b", "w_c")], ["1.00", "2.00", "4.00"])

    def test_precisions_and_packing(self):
        for at, (precision, size) in enumerate((("ns", 10**9), ("u", 10**6), ("ms", 1000), ("s", 1))):
            self.require_written(f"w a={at} {(T + at) * size + size // 2}", path=f"/write?precision={precision}")
        self.require_written(gzip.compress(f"w a=9 {T + 9}".encode()), Content_Encoding="gzip")
        self.require_written(zlib.compress(f"w a=8 {T + 8}".encode()), path="/api/v2/write?precision=s", Content_Encoding="deflate")
        for data, coding, status in ((b"no gzip", "gzip", 400), (gzip.compress(b"w a=1")[:-9], "gzip", 400), (b"x", "br", 415)):
            self.assertEqual(self.gateway.write(data, Content_Encoding=coding)[0], status)
        self.assertEqual(self.gateway.write("w a=1", path="/write?precision=d")[0], 400)
        self.gateway.stop()
        self.assertEqual(self.gateway.exported("w_a"), {T + at: f"{at}.00" for at in (0, 1, 2, 3, 8, 9)})

    def test_two_measurements_that_make_one_name_arent_mixed(self):
        self.require_written(f"a_b c=1 {T}")
        status, text = self.gateway.write(f"a b_c=2 {T}")
        self.assertEqual(status, 400)
        self.assertIn("'a_b', not of 'a'", text)
        self.gateway.stop()
        self.assertEqual(self.gateway.exported("a_b_c"), {T: "1.00"})

    def test_times_of_another_precision_are_refused_or_lie_elsewhere(self):
        self.require_written(f"w a=1 {T}")
        far = T * 10**9
        for lines, path in ((f"w a=2 {far}", "/write?precision=s"), (f"w a=2 {T}", "/write"), (f"fresh a=2 {far}", "/write?precision=h")):
            status, text = self.gateway.write(lines, path=path)
            self.assertEqual(status, 400, text)
            self.assertIn("partial write", text)
        self.gateway.stop()
        self.assertEqual((list(self.gateway.listed()), self.gateway.exported("w_a")), (["w_a"], {T: "1.00"}))

    def test_the_last_of_a_slot_stays_however_its_labels_are_ordered(self):
        self.require_written(f"w,a=1,b=2 v=1 {T + 5}\nw,b=2,a=1 v=2 {T}\nw,a=1,b=2 v=3 {T}\nw,b=2,a=1 v=4 {T + 5}\nw,a=1,b=2 v=5 {T - 86_400 * 40}")
        self.gateway.stop()
        (name,) = self.gateway.listed()
        self.assertEqual(self.gateway.exported(name), {T - 86_400 * 40: "5.00", T: "3.00", T + 5: "4.00"})

    def test_csv(self):
        status, text, _ = self.gateway.ask("/csv/boiler?room=cellar", f"time,value\n{T},1.5\n{T + 2},\n2023-11-14T22:13:23Z,2.5\n")
        self.assertEqual((status, json.loads(text)), (200, {"taken": 2, "left_out": 1, "dropped": 0}))
        status, text, _ = self.gateway.ask("/csv/boiler?room=cellar", f"{T},1.5\nx,1\n")
        self.assertEqual((status, json.loads(text)["taken"]), (400, 1))
        expected = {'{"__name__": "boiler", "room": "cellar"}': {T: Decimal("1.5"), T + 3: Decimal("2.5")}}
        self.assertEqual(self.values('boiler{room="cellar"}[1h]', T + 60), expected)

    def test_remote_write(self):
        try:
            import snappy
        except ImportError as why:
            raise unittest.SkipTest(f"python3-snappy isn't there: {why}")
        samples = [(1.0, T * 1000 + 999), (0.25, T * 1000 + 2000), (float("nan"), T * 1000 + 3000)]
        message = message_of([({"__name__": "up", "job": "node"}, samples)])
        self.assertEqual(self.gateway.ask("/api/v1/write", snappy.compress(message))[:2], (204, b""))
        for broken in (b"", b"\xff", snappy.compress(b"\x0b"), b"\xff\xff\xff\xff\x0f"):
            self.assertIn(self.gateway.ask("/api/v1/write", broken)[0], (400, 413))
        self.assertEqual(self.values("up[1h]", T + 60), {'{"__name__": "up", "job": "node"}': {T: Decimal(1), T + 2: Decimal("0.25")}})

    def test_random_writes_by_many_at_once_are_what_is_stored(self):
        draw, model = random.Random(3), {}
        clients = [http.client.HTTPConnection("127.0.0.1", self.gateway.port, timeout=SECONDS) for _ in range(4)]
        for _ in range(20):
            for number, client in enumerate(clients):  # each its own series, so the order of two clients doesn't matter
                points = [(f"s{number}_{draw.randrange(20)}", T + draw.randrange(5000), draw.randrange(-10**6, 10**6)) for _ in range(200)]
                model.update({(name, time): value for name, time, value in points})
                client.request("POST", "/write?precision=s", "\n".join(f"m {name}={value}i {time}" for name, time, value in points))
            for client in clients:
                answer = client.getresponse()
                self.assertEqual((answer.status, answer.read()), (204, b""))
        for client in clients:
            client.close()
        self.assertEqual(self.gateway.stop(), 0)
        stored = {(name, time): int(Decimal(value)) for name in self.gateway.listed() for time, value in self.gateway.exported(name).items()}
        self.assertEqual(stored, {(f"m_{name}", time): value for (name, time), value in model.items()})

    def test_odd_requests_get_an_answer(self):
        for path, data, status in (
            ("/write", "", 204), ("/nothing", None, 404), ("/write", None, 405), ("/csv/" + "x" * 2000, "1,1", 400), ("/csv/a%2F..%2Fb", f"{T},1", 200),
            ("/query", "q=CREATE+DATABASE+%22a%22", 200), ("/query?q=SHOW+DATABASES", None, 200), ("/query?q=SELECT+1", None, 400), ("/ping", None, 204),
        ):
            headers = {"Content-Type": "application/x-www-form-urlencoded"} if path == "/query" else {}
            self.assertEqual(self.gateway.ask(path, data, **{name.replace("-", "_"): value for name, value in headers.items()})[0], status, path)
        self.assertEqual(sorted(os.listdir(self.gateway.stores)), ["gateway.lock", "gateway.store", "names.json"])


if __name__ == "__main__":
    unittest.main()
