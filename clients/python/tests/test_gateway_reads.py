"""What is read of a gateway is what was written, folded by a look at every point."""
import json
import os
import random
import unittest
import urllib.parse
from decimal import Decimal

from gateway_server import PROGRAM, OverAGateway, T, require_all

require_all()

from zurtkvani_client import Store  # noqa: E402


class Reads(OverAGateway):
    def setUp(self):
        super().setUp()
        draw = random.Random(4)
        self.model = {}
        for name in ("a", "b"):
            self.model[name] = {T + at: Decimal(draw.randrange(-9999, 9999)).scaleb(-2) for at in range(3000) if draw.random() < 0.7}
        lines = [f"{name},room=x v={value} {time}" for name, values in self.model.items() for time, value in values.items()]
        self.require_written("\n".join(lines))

    def ranged(self, query, start, end, step):
        path = f"/api/v1/query_range?{urllib.parse.urlencode({'query': query, 'start': start, 'end': end, 'step': step})}"
        status, text, headers = self.gateway.ask(path)
        self.assertEqual(status, 200, text)
        result = json.loads(text)["data"]["result"]
        self.assertLessEqual(len(result), 1)
        return {time: Decimal(value) for one in result for time, value in one["values"]}, headers["Zurtkvani-Read"]

    def expected(self, fold, name, start, end, step, length):
        """Each window's values folded, by a look at every point."""
        found = {}
        for time in range(start, end + 1, step):
            window = [(at, value) for at, value in self.model[name].items() if time - length < at <= time]
            if window:
                found[time] = fold([value for _, value in sorted(window)])
        return found

    FOLDS = {
        "min": min, "max": max, "last": lambda values: values[-1], "sum": sum, "count": len, "avg": lambda values: sum(values) / len(values),
    }

    def test_folds_over_time_are_those_of_all_points(self):
        ways = set()
        for name, fold in self.FOLDS.items():
            for start, end, step, length in (
                (T, T + 2999, 60, 60), (T + 90, T + 800, 3, 300), (T, T + 3500, 500, 20), (T - 500, T + 4000, 50, 120), (T + 13, T + 2000, 7, 1), (T + 5, T + 2500, 119, 61), (T + 100, T + 100, 60, 600), (T + 10, T + 3500, 600, 600),
                (T - 300, T + 3500, 300, 900),
            ):
                with self.subTest(name, step=step, length=length):
                    found, way = self.ranged(f"{name}_over_time(a_v[{length}s])", start, end, step)
                    expected = self.expected(fold, "a", start, end, step, length)
                    self.assertEqual(found.keys(), expected.keys())
                    for time, value in expected.items():
                        self.assertAlmostEqual(found[time], value, 12 if name == "avg" else 30)
                    ways.add(way)
        self.assertEqual(ways, {"columns", "parts", "values"})

    def test_windows_that_fit_no_grid_are_read_step_by_step(self):
        found, way = self.ranged("max_over_time(a_v[1500ms])", T + 1, T + 100, 2.5)
        self.assertEqual(way, "steps")
        for time in [T + 1 + at * 2.5 for at in range(40)]:
            window = [value for at, value in self.model["a"].items() if time - 1.5 < at <= time]
            self.assertEqual(found.get(time), max(window, default=None))

    def test_selectors_sums_and_differences(self):
        last = {name: self.expected(self.FOLDS["last"], name, T, T + 900, 30, 300) for name in ("a", "b")}
        for query, fold in (
            ("a_v", lambda a, b: a), ("a_v + b_v", lambda a, b: a + b), ("a_v - b_v", lambda a, b: a - b), ("2 * a_v / 4", lambda a, b: a / 2),
            ('sum({__name__=~"a_v|b_v"})', lambda a, b: a + b), ('max({__name__=~".+_v"})', max), ("-a_v", lambda a, b: -a),
        ):
            found, _ = self.ranged(query, T, T + 900, 30)
            self.assertEqual(found, {time: fold(last["a"][time], last["b"][time]) for time in last["a"] if time in last["b"]}, query)

    def test_what_went_in_comes_out(self):
        for name, values in self.model.items():
            (found,) = self.values(f"{name}_v[1d]", T + 10_000).values()
            self.assertEqual(found, values)

    def test_series_and_labels(self):
        self.assertEqual(self.gateway.told_of("labels"), ["__name__", "room"])
        self.assertEqual(self.gateway.told_of("label/__name__/values"), ["a_v", "b_v"])
        self.assertEqual(self.gateway.told_of("label/room/values", **{"match[]": "a_v"}), ["x"])
        self.assertEqual(self.gateway.told_of("series", **{"match[]": ['{room="x",__name__!="b_v"}']}), [{"__name__": "a_v", "room": "x"}])
        self.assertEqual(list(self.gateway.told_of("metadata")), ["a_v", "b_v"])
        self.assertIn("version", self.gateway.told_of("status/buildinfo"))
        self.assertEqual(self.gateway.told_of("query", query="1+1", time=T), {"resultType": "scalar", "result": [T, "2"]})
        self.assertEqual(self.gateway.told_of("query", query="a_v", time=T - 1)["result"], [])

    def test_what_isnt_understood_is_an_error_that_says_what_is(self):
        for path, status, words in (
            ("query?query=rate(a_v[5m])", 400, "avg_over_time"), ("query", 400, "query is missing"), ("query?query=a_v&time=x", 400, "no time"),
            (f"query_range?query=a_v&start={T}&end={T - 1}&step=1", 400, "before"), ("series", 400, "match"),
            (f"query_range?query=a_v&start={T}&end={T + 20000}&step=1", 400, "steps"),
            (f"query_range?query=a_v&start={T}&end={T}&step=0", 400, "step"),
            (f"query_range?query=a_v&start=1e30&end={T}&step=1", 400, "far"),
            ("query?query=a_v[5m]%2B1", 400, "range"), ("query?query=sum(1)", 400, "number"), ("query?query=a_v&time=NaN", 400, ""),
        ):
            got, text, _ = self.gateway.ask(f"/api/v1/{path}")
            answer = json.loads(text)
            self.assertEqual((got, answer["status"], answer["errorType"]), (status, "error", "bad_data"), path)
            self.assertIn(words, answer["error"])

    def test_charts_are_those_of_the_program(self):
        self.assertEqual(self.gateway.ask("/chart/a_v.png?width=0")[0], 400)
        self.assertEqual(self.gateway.ask("/chart/none.png")[0], 400)
        status, svg, _ = self.gateway.ask("/chart/a_v.svg?width=300&height=100")
        self.assertEqual((status, svg[:4]), (200, b"<svg"))
        selector = urllib.parse.quote('a_v{room="x"}')
        status, png, headers = self.gateway.ask(f"/chart/{selector}.png?from={T}&to={T + 1000}&width=320&height=120")
        self.assertEqual((status, headers["Content-Type"]), (200, "image/png"))
        self.gateway.stop()
        (name,) = [name for name in self.gateway.listed() if name.startswith("a_v")]
        with Store(os.path.join(self.gateway.stores, "gateway.store"), program=PROGRAM) as store:
            self.assertEqual(png, store.draw(name, 320, 120, T, T + 1000).to_png())


if __name__ == "__main__":
    unittest.main()
