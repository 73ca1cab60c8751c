"""Points as collectors send them: the line protocol, remote write, CSV and collectd's JSON."""
import random
import struct
import unittest

from gateway_server import MISSING

if MISSING:
    raise unittest.SkipTest(MISSING)

from zurtkvani_client.gateway import collectd_points, csv_points, intake, line_protocol, remote_write  # noqa: E402
from zurtkvani_client.unfit import Unfit  # noqa: E402


def kept(value, scale):
    """The number that a series keeps of a value, or the value that is too large."""
    try:
        return intake.number_of(value, scale)
    except Unfit:
        return value


class LineProtocol(unittest.TestCase):
    def points(self, text, database="", precision="s"):
        outcome = intake.Outcome()
        reader = line_protocol.Reader("db", "_")
        body = text if isinstance(text, bytes) else text.encode()
        found = filter(None, reader.points(body, database, precision, 5 * 10**9, outcome))
        return [(dict(point.key), point.time, point.value) for point in found], outcome

    def test_points(self):
        for text, expected in (
            ("w temp=21.5 7", [({"__name__": "w_temp"}, 7 * 10**9, "21.5")]),
            ("w,room=a on=t,off=F,t=1i", [({"__name__": f"w_{name}", "room": "a"}, 5 * 10**9, value) for name, value in (("on", 1), ("off", 0), ("t", 1))]),
            ("w,room=a\\ b\\,c\\=d te\\ mp=-1e-3 -1", [({"__name__": "w_te mp", "room": "a b,c=d"}, -(10**9), "-1e-3")]),
            ('w a="x, y=1 \\" z",b=2u 1', [({"__name__": "w_b"}, 10**9, 2)]),
            ('w a="two\nlines",b=2 1\nw b=3 2', [({"__name__": "w_b"}, 10**9, "2"), ({"__name__": "w_b"}, 2 * 10**9, "3")]),
            ("# a comment\n\n  w v=1 1\r\n", [({"__name__": "w_v"}, 10**9, "1")]),
            ("w\\ x\\,y v=1 1", [({"__name__": "w x,y_v"}, 10**9, "1")]),
            ("wärme,ort=Küche v=1 1", [({"__name__": "wärme_v", "ort": "Küche"}, 10**9, "1")]),
            ("w,room=a\u00a0b v=1", [({"__name__": "w_v", "room": "a\u00a0b"}, 5 * 10**9, "1")]),
            ("w v=nan,u=1 1", [({"__name__": "w_u"}, 10**9, "1")]),
        ):
            with self.subTest(text):
                found, outcome = self.points(text)
                self.assertEqual(found, expected)
                self.assertEqual(outcome.errors, [])

    def test_what_is_no_point_is_told_and_the_rest_taken(self):
        for text, why in (
            ("w", "missing fields"), ("w ", "missing fields"), ("w v=", "invalid field format"), ("w v=x", "invalid number"),
            ("w v=1 soon", "bad timestamp"), ("w,room v=1", "missing tag value"), (",room=a v=1", "missing measurement"),
            ("w,room=a, v=1", "missing tag key"), ("w v", "invalid field format"),
            ("w v=1i2", "invalid number"), ("w v=0x1", "invalid number"), ("w v=1,", "missing fields"), ("w,a=1,a=2 v=1", "duplicate tags"),
            ("w v=1_0", "invalid number"), ("w v=+1", "invalid number"), ("w\tv=1 1", "format"), ("w v=١", "invalid number"),
            ("w v=1 1 1", "invalid field format"), ("w,__name__=x v=1", "own"),
        ):
            with self.subTest(text):
                found, outcome = self.points(text + "\ngood v=1 1")
                self.assertEqual([labels_of for labels_of, _, _ in found], [{"__name__": "good_v"}])
                self.assertEqual(len(outcome.errors), 1, outcome.errors)
                self.assertIn(why, outcome.errors[0])
        found, outcome = self.points(b"w,a=\xff v=1 1\ngood v=1 1")
        self.assertEqual((len(found), len(outcome.errors)), (1, 1))

    def test_a_database_is_a_label(self):
        self.assertEqual(self.points("w v=1 1", "plant")[0][0][0], {"__name__": "w_v", "db": "plant"})
        self.assertEqual(len(self.points("w,db=x v=1 1", "plant")[1].errors), 1)
        self.assertEqual(self.points("w,db=x v=1 1")[0][0][0], {"__name__": "w_v", "db": "x"})

    def test_columns_have_what_lines_have(self):
        draw, plain, fixed_columns = random.Random(8), 0, 0
        heads = ["w", "w,a=1", "w,b=2,a=1", "w,a=1,b=2", "ä,ö=ü", "w,a=1,a=2", "w,a=", ",a=1", "w\\ x", "#w", ""]
        texts = ["v=1", "v=1.5", "v=-0.001", "v=5i", "v=7u", "v=1e3", "v=.5", "v=1.", "v=t", "v=nan", "v=", "v", "=1", "v=x", "u=1", "v=1,u=2", "v=1,v=2",
                 "v=1,u=2i", "v=1,u=NaN", "v=1,", "v=1=2", "v=1_0", "v=1.2345", "v=-", 'v="a b"', "v=" + "9" * 20]
        fixed = ["v=1.50", "v=-20.25", "v=-0.00", "v=0.07", "v=9999999999999999.99", "v=99999999999999999.99", "v=007.25", "v=1.5", "v=.25", "v=2.2 5"]
        times = ["1", "2", "3", "4", "-1", "", "soon", "1_0", "99999999999999999999", "+1"]
        for _ in range(3000):
            odd = draw.choice((0, 0, 0.02, 0.2))

            def one_of(listed, count):
                return draw.choice(listed if draw.random() < odd else listed[:count])

            few, some, values, scale = draw.randrange(1, 5), draw.randrange(1, 8), draw.choice((texts, texts, fixed)), draw.choice((1, 2, 3))
            in_rounds = draw.random() < 0.4  # the heads one after the other, again and again, but for a slip
            heads_of = [heads[at % few] if in_rounds and draw.random() > odd else one_of(heads, few) for at in range(draw.randrange(1, 12))]
            lines = [" ".join((head, one_of(values, some), one_of(times, 4))) for head in heads_of]
            body = (one_of(["\n", "\r\n", "\n\n", " \n"], 1).join(lines) + draw.choice(["", "\n"])).encode()
            reader, found, outcomes = line_protocol.Reader("db", "_"), [{}, {}], [intake.Outcome(), intake.Outcome()]
            parts = (reader.parts(body, "", "s", 5, outcomes[0]), intake.parts_of(reader.points(body, "", "s", 5, outcomes[1])))
            plain += reader.columns(body.rstrip(b"\n"), "", 1) is not None
            for model, of in zip(found, parts):
                for column in (column for part in of for column in part):
                    fixed_columns += column.decimals is not None
                    numbers = column.numbers(scale)
                    if numbers is None:
                        numbers = [kept(value, scale) for value in column.plain()]
                    model.setdefault((column.key, column.measurement), []).extend(zip(column.slots(0, 1), numbers))
            self.assertEqual(*found, body)
            self.assertEqual(*[(outcome.errors, outcome.bad, outcome.left_out) for outcome in outcomes], body)
        self.assertGreater(plain, 1000)
        self.assertGreater(fixed_columns, 500)

    def test_a_long_body_is_read_piece_by_piece(self):
        body = "".join(f"w,n={at % 3} v={at}.250,u={at}i {at}\n" for at in range(20_000)).encode()
        outcome = intake.Outcome()
        parts = list(line_protocol.Reader("db", "_").parts(body, "", "s", 5, outcome))
        self.assertGreater(len(parts), 1)
        self.assertEqual(sum(len(column.times) for part in parts for column in part), 40_000)
        long = b"w v=1 1\n" + b"x" * 2**19 + b" v=2 2\nw v=3 3"
        found = [column for part in line_protocol.Reader("db", "_").parts(long, "", "s", 5, outcome) for column in part]
        self.assertEqual([column.slots(0, 1) for column in found], [[10**9], [2 * 10**9], [3 * 10**9]])

    def test_random_points_are_those_that_influxdbs_client_wrote(self):
        try:
            from influxdb.line_protocol import make_lines
        except ImportError as why:
            raise unittest.SkipTest(f"python3-influxdb isn't there: {why}")
        draw = random.Random(6)

        def word():
            return "".join(draw.choice("ab é,= '(#") for _ in range(draw.randrange(1, 6))).strip("# ") + "x"

        for _ in range(2000):
            tags = {word(): word() for _ in range(draw.randrange(3))}
            texts = word() + draw.choice(['"', "\\", "\n", ""])
            values = (draw.randrange(-(10**12), 10**12), draw.random() * 10 ** draw.randrange(-9, 9), True, False, texts)
            fields = {word(): draw.choice(values) for _ in range(draw.randrange(1, 4))}
            name, time = word(), draw.randrange(2**50)
            lines = make_lines({"points": [{"measurement": name, "tags": tags, "fields": fields, "time": time}]}, "s")
            kept = {field: float(value) for field, value in fields.items() if not isinstance(value, str)}
            expected = [({"__name__": f"{name}_{field}", **tags}, time * 10**9, value) for field, value in kept.items()]
            found, outcome = self.points(lines)
            self.assertEqual(outcome.errors, [], lines)
            told = [(pairs, at, float(value)) for pairs, at, value in found]
            self.assertEqual(sorted(told, key=repr), sorted(expected, key=repr), lines)

    def test_precisions(self):
        sizes = (("", 1), ("ns", 1), ("u", 10**3), ("us", 10**3), ("ms", 10**6), ("s", 10**9), ("m", 60 * 10**9), ("h", 3600 * 10**9))
        for precision, size in sizes:
            self.assertEqual(self.points("w v=1 3", precision=precision)[0][0][1], 3 * size)


def message_of(series):
    """A WriteRequest, by hand."""
    def varint(number):
        number %= 2**64
        out = b""
        while number > 127:
            out += bytes([number & 127 | 128])
            number >>= 7
        return out + bytes([number])

    def held(number, data):
        return bytes([number << 3 | 2]) + varint(len(data)) + data

    whole = b""
    for pairs, samples in series:
        one = b"".join(held(1, held(1, name.encode()) + held(2, value.encode())) for name, value in pairs.items())
        one += b"".join(held(2, b"\x09" + struct.pack("<d", value) + b"\x10" + varint(time)) for value, time in samples)
        whole += held(1, one)
    return whole


class RemoteWrite(unittest.TestCase):
    SERIES = [
        ({"__name__": "up", "job": "node"}, [(1.0, 1700000000123), (0.5, -5)]), ({"__name__": "empty"}, []),
        ({"__name__": "t", "ort": "Küche"}, [(float("nan"), 1), (float("inf"), 2), (1e300, 3), (0.1, 4)]),
    ]

    def points(self, message):
        outcome = intake.Outcome()
        return [(dict(point.key), point.time, point.value) for point in filter(None, remote_write.points(message, outcome))], outcome.left_out

    def test_points(self):
        found, left_out = self.points(message_of(self.SERIES))
        self.assertEqual(left_out, 2)
        self.assertEqual(found, [
            ({"__name__": "up", "job": "node"}, 1700000000123 * 10**6, 1), ({"__name__": "up", "job": "node"}, -5 * 10**6, "0.5"),
            ({"__name__": "t", "ort": "Küche"}, 3 * 10**6, "1e+300"), ({"__name__": "t", "ort": "Küche"}, 4 * 10**6, "0.1"),
        ])

    def test_random_messages_are_read_as_protobuf_reads_them(self):
        try:
            from google.protobuf import descriptor_pb2, descriptor_pool
            from google.protobuf.message_factory import MessageFactory
        except ImportError as why:
            raise unittest.SkipTest(f"python3-protobuf isn't there: {why}")
        file = descriptor_pb2.FileDescriptorProto(name="remote.proto", package="test", syntax="proto3")
        kinds = {"bytes": 12, "double": 1, "int64": 3, "string": 9, "message": 11}
        for name, held in (
            ("Label", [("name", 1, "string", False, ""), ("value", 2, "string", False, "")]),
            ("Sample", [("value", 1, "double", False, ""), ("timestamp", 2, "int64", False, "")]),
            ("TimeSeries", [("labels", 1, "message", True, "Label"), ("samples", 2, "message", True, "Sample")]),
            ("WriteRequest", [("timeseries", 1, "message", True, "TimeSeries"), ("metadata", 3, "bytes", False, "")]),
        ):
            message = file.message_type.add(name=name)
            for field, number, kind, is_list, of in held:
                message.field.add(name=field, number=number, type=kinds[kind], label=3 if is_list else 1, type_name=f".test.{of}" if of else None)
        pool = descriptor_pool.DescriptorPool()
        pool.Add(file)
        write_request = MessageFactory(pool).GetPrototype(pool.FindMessageTypeByName("test.WriteRequest"))
        draw = random.Random(1)
        for _ in range(200):
            made = write_request(metadata=bytes(draw.randrange(256) for _ in range(draw.randrange(9))))
            expected = []
            for _ in range(draw.randrange(4)):
                series = made.timeseries.add()
                names_of = {f"l{draw.randrange(5)}": draw.choice(["a", "ü" * 200, "x y"]) for _ in range(draw.randrange(1, 4))}
                for name, value in names_of.items():
                    series.labels.add(name=name, value=value)
                for _ in range(draw.randrange(4)):
                    value, time = draw.choice([0.0, 1.5, -1e-9, draw.random() * 1e6]), draw.choice([0, -1, draw.randrange(2**62)])
                    series.samples.add(value=value, timestamp=time)
                    expected.append((names_of, time * 10**6, value))
            found, _ = self.points(made.SerializeToString())
            self.assertEqual([(pairs, time, float(value)) for pairs, time, value in found], expected)

    def test_cut_messages_are_refused_or_are_shorter_ones(self):
        message = message_of(self.SERIES)
        for length in range(len(message)):
            try:
                self.points(message[:length])
            except remote_write.Bad:
                pass
        for broken in (b"\xff" * 11, b"\x0b", b"\x0a\x05\x0a", b"\x0a\x02\x08\x01\xff"):
            with self.assertRaises(remote_write.Bad):
                self.points(broken)


class Csv(unittest.TestCase):
    def test_points(self):
        outcome = intake.Outcome()
        text = "time,value\n1700000000,1.5\n2023-11-14T22:13:21Z,2\n1700000002.5,-\n1700000003000,3\nsoon,4\n1700000004,x\n1,2,3\n"
        found = [(point.time, point.value) for point in filter(None, csv_points.points(text, (), "", outcome))]
        self.assertEqual(found, [(1700000000 * 10**9, "1.5"), (1700000001 * 10**9, "2"), (1700000003 * 10**9, "3")])
        self.assertEqual((outcome.left_out, outcome.bad), (1, 3))


class Collectd(unittest.TestCase):
    # As collectd's documentation of write_http shows it, with another value that is none.
    BODY = """[{"values": [1901474177, null], "dstypes": ["counter", "gauge"], "dsnames": ["value", "rx"], "time": 1280959128.25, "interval": 10,
      "host": "leeloo.octo.it", "plugin": "cpu", "plugin_instance": "0", "type": "cpu", "type_instance": "idle"}]"""

    def points(self, body):
        outcome = intake.Outcome()
        return list(filter(None, collectd_points.points(body, outcome))), outcome

    def test_points(self):
        (point,), outcome = self.points(self.BODY)
        self.assertEqual(dict(point.key), {"__name__": "collectd_cpu_cpu", "host": "leeloo.octo.it", "plugin_instance": "0", "type_instance": "idle"})
        self.assertEqual((point.time, point.value, outcome.left_out), (1280959128_250_000_000, 1901474177, 1))

    def test_what_is_no_value_list_is_told(self):
        for body in ("", "{", "[1]", '[{"values":[1]}]', '[{"values":[1],"dsnames":[],"time":1,"plugin":"a","type":"b"}]', "[" * 100_000,
                     '[{"values":["x"],"dsnames":["a"],"time":1,"plugin":"a","type":"b"}]', '[{"values":[1],"dsnames":["a"],"time":1e999999,"plugin":"a","type":"b"}]'):
            found, outcome = self.points(body)
            self.assertEqual((found, outcome.bad), ([], 1), body[:50])


if __name__ == "__main__":
    unittest.main()
