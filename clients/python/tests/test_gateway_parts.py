"""The parts of a gateway that need no server: configuration, names, rules, values and queries."""
import io
import json
import os
import random
import struct
import tempfile
import unittest
from decimal import ROUND_HALF_EVEN, Decimal

from gateway_server import MISSING, ROOT

if MISSING:
    raise unittest.SkipTest(MISSING)

from zurtkvani_client import frames, set_lines  # noqa: E402
from zurtkvani_client.gateway import child, configuration, evaluating, intake, labels, matching, names, promql, rules  # noqa: E402
from zurtkvani_client.unfit import Unfit  # noqa: E402


class Configuration(unittest.TestCase):
    def read(self, text):
        with tempfile.NamedTemporaryFile("w", suffix=".toml") as file:
            file.write(text)
            file.flush()
            return configuration.read(file.name)

    def test_the_example_has_each_key_with_its_default(self):
        path = os.path.join(ROOT, "package/gateway.toml")
        found, empty = configuration.read(path), self.read("")
        with open(path, encoding="utf-8") as file:
            text = file.read()
        lines = configuration.lines_of(text)
        for table, rules_of_table in {**configuration.SECTIONS, "series": configuration.RULE}.items():
            for key in rules_of_table:
                self.assertIn((table, 0, key), lines)
        # Topics and alarms stand behind the signs of comments, since none is one by its defaults.
        for table, keys in (("topic", configuration.TOPIC), ("alarm", configuration.ALARM)):
            part = text.partition(f"# [[{table}]]")[2].partition("\n\n")[0]
            for key, (default, _) in keys.items():
                self.assertIn(f"\n# {key} = {json.dumps(default)}", part)
        self.assertEqual(found.series[0], empty.series[0])
        self.assertEqual(vars(found) | {"series": 0}, vars(empty) | {"series": 0})

    def test_what_is_wrong_is_named_with_its_line(self):
        for text, line, words in (
            ("[listen]\nport = 0\n", 2, "port"), ("[listen]\n\nprot = 1\n", 3, "'prot'"), ("[stores]\nfiles = []\n", 2, "file"),
            ("[lisen]\nport = 1\n", 1, "lisen"), ('[[series]]\nmatch = "a"\n[[series]]\nstep = "no"\n', 4, "step"),
            ('[stores]\nfiles = ["../a"]\n', 2, "folder"), ('[tokens]\nread = ["secret"]\n', 2, "SHA-256"),
            ('[listen]\naddress = "0.0.0.0"\n', 2, "token"), ('[stores]\nsize = "1K"\n', 2, "bytes"), ("[listen]\nport = true\n", 2, "port"),
            ('[[series]]\nscale = 10\n', 2, "scale"), ('[[series]]\nstart = "someday"\n', 2, "someday"), ("port = 1\n", 1, "port"),
        ):
            with self.subTest(text), self.assertRaises(configuration.Wrong) as caught:
                self.read(text)
            self.assertIn(f"line {line}:", str(caught.exception))
            self.assertIn(words, str(caught.exception))

    def test_what_is_no_toml_is_told_with_its_line(self):
        with self.assertRaisesRegex(configuration.Wrong, "line 2"):
            self.read("[listen]\nport 1\n")


class Names(unittest.TestCase):
    def test_labels_that_a_store_cant_keep_have_a_name_of_their_own(self):
        with tempfile.TemporaryDirectory() as folder:
            path = os.path.join(folder, "names.json")
            table = names.Names(path)
            plain, long = labels.key_of({"__name__": "boiler"}), labels.key_of({"__name__": "b" * 32})
            labelled = labels.key_of({"__name__": "boiler", "room": "kitchen \"A\"\n"})
            self.assertEqual(table.inner_of(plain), "boiler")
            table.add([(plain, None), (long, None), (labelled, "boil")], lambda name: False)
            inner = [table.inner_of(key) for key in (plain, long, labelled)]
            self.assertEqual(len(set(inner)), 3)
            self.assertTrue(all(labels.INNER.fullmatch(name) for name in inner))
            again = names.Names(path)
            self.assertEqual([again.inner_of(key) for key in (plain, long, labelled)], inner)
            self.assertEqual([again.key_of_inner(name) for name in inner], [plain, long, labelled])
            self.assertEqual(again.measurements, {labelled: "boil"})
            self.assertEqual(os.listdir(folder), ["names.json"])

    def test_a_plain_name_that_another_series_has_gets_one_of_its_own(self):
        with tempfile.TemporaryDirectory() as folder:
            table = names.Names(os.path.join(folder, "names.json"))
            labelled = labels.key_of({"__name__": "a", "b": "c"})
            table.add([(labelled, None)], lambda name: False)
            plain = labels.key_of({"__name__": table.inner_of(labelled)})
            self.assertIsNone(table.inner_of(plain))
            table.add([(plain, None)], lambda name: False)
            self.assertNotEqual(table.inner_of(plain), table.inner_of(labelled))

    def test_a_table_that_cant_be_written_takes_nothing_in(self):
        with tempfile.TemporaryDirectory() as folder:
            table = names.Names(os.path.join(folder, "none", "names.json"))
            key = labels.key_of({"__name__": "a", "b": "c"})
            with self.assertRaises(OSError):
                table.add([(key, None)], lambda name: False)
            self.assertIsNone(table.inner_of(key))

    def test_a_damaged_table_is_refused(self):
        with tempfile.TemporaryDirectory() as folder:
            path = os.path.join(folder, "names.json")
            for text in ("", "{", "[]", '{"version":2,"series":[]}', '{"version":1,"series":[{"name":"a"}]}'):
                with open(path, "w") as file:
                    file.write(text)
                with self.subTest(text), self.assertRaises(names.Damaged):
                    names.Names(path)


class Values(unittest.TestCase):
    def test_values_are_rounded_half_to_even(self):
        for value, scale, number in (("0.5", 0, 0), ("1.5", 0, 2), ("-2.5", 0, -2), ("21.345", 2, 2134), ("21.355", 2, 2136), (7, 2, 700), ("1e-30", 9, 0)):
            self.assertEqual(intake.number_of(value, scale), number)
        draw = random.Random(8)
        for _ in range(5000):
            text = draw.choice((
                f"{draw.uniform(-1e6, 1e6):.{draw.randrange(8)}f}", repr(draw.uniform(-1e9, 1e9)), f"-.{draw.randrange(10**4)}", f"{draw.randrange(10**8)}.",
                f"{draw.randrange(100)}e{draw.randrange(-9, 6)}", f"-0.{draw.randrange(10**9):09}", str(draw.randrange(-(10**9), 10**9)),
            ))
            scale = draw.randrange(10)
            self.assertEqual(intake.number_of(text, scale), int(Decimal(text).scaleb(scale).to_integral_value(ROUND_HALF_EVEN)), (text, scale))
        for value, scale in ((10**18, 1), ("1e18", 1), ("1e400000", 0), ("1_0", 1), ("", 0), ("x", 2), ("1.2.3", 4)):
            with self.assertRaises(Unfit):
                intake.number_of(value, scale)

    def test_texts_of_values(self):
        for value, text in (("21.50", "21.5"), ("1E+3", "1000"), ("-0.001", "-0.001"), ("0", "0"), ("1E-9", "0.000000001"), ("Infinity", "+Inf"), ("NaN", "NaN")):
            self.assertEqual(evaluating.text_of(Decimal(value)), text)
        self.assertEqual(float(evaluating.text_of(evaluating.EXACT.divide(Decimal(1), Decimal(3)))), 1 / 3)

    def test_rows_are_those_of_frames(self):
        draw = random.Random(2)
        for _ in range(50):
            rows = []
            for column in sorted(draw.sample(range(64), draw.randrange(20))):
                least, greatest = sorted(draw.randrange(-(10**18), 10**18) for _ in range(2))
                rows.append((column, draw.randint(least, greatest), least, greatest, draw.randint(least, greatest)))
            body = struct.pack(">BIHHqqH", 6, 1, 64, 1, -(10**18), 10**18, len(rows)) + b"".join(struct.pack(">Hqqqq", *row) for row in rows)
            frame = struct.pack(">I", len(body)) + body
            told, _ = frames.accept(frames.Fields(io.BytesIO(frame)), {1: frames.Session(1)})
            self.assertEqual(list(map(tuple, told.rows)), list(child.rows_of(frame)))


class Edits(unittest.TestCase):
    def test_what_an_edit_was_answered(self):
        for slots in (0, 1, 255, 2**35):
            frame = struct.pack(">IBQ", 9, frames.DONE, slots)
            self.assertEqual((child.slots_of(frame), child.done_or_refused(frame).slots), (slots, slots))
            self.assertIsNone(child.refusal_of(frame))
        refused = struct.pack(">IBBqq", 18, frames.REFUSED, 21, 0, 0)
        self.assertIsNone(child.slots_of(refused))
        self.assertEqual(child.refusal_of(refused).number, 21)


class Rules(unittest.TestCase):
    def rule(self, **given):
        reader = configuration.Reader("test", {})
        return reader.section("series", given, configuration.RULE)

    def test_the_first_rule_that_fits_is_taken(self):
        both = [self.rule(match="boiler_*", step="1s"), self.rule(match='*{*room="a"*}', step="2s"), self.rule()]
        for name, room, step in (("boiler_1", "a", 1), ("tank", "a", 2), ("tank", "b", 10)):
            key = labels.key_of({"__name__": name, "room": room})
            self.assertEqual(rules.rule_for(both, key).step, step * 10**9)

    def test_grids(self):
        noon = 1_700_050_000 * 10**9
        self.assertEqual(rules.grid_for(self.rule(before="1d"), noon), (1_699_920_000, 10, 3))
        self.assertEqual(rules.grid_for(self.rule(step="250ms", before="0s"), noon), (1_700_006_400_000, 250, 3))
        self.assertEqual(rules.grid_for(self.rule(start="2023-01-01"), noon).start, 1_672_531_200)
        for given in ({"start": "2024-01-01"}, {"step": "1ms", "start": "1971-01-01"}):
            with self.assertRaises(Unfit):
                rules.grid_for(self.rule(**given), noon)


class SetLines(unittest.TestCase):
    def test_lines_have_the_values_at_their_slots(self):
        draw = random.Random(4)
        for _ in range(300):
            values, slot = {}, draw.randrange(1000)
            for _ in range(draw.randrange(900)):
                values[slot] = draw.randrange(-9, 9)
                slot += 1 if draw.random() < draw.choice((0.5, 0.999)) else draw.randrange(2, 300)
            listed = list(values.items())
            draw.shuffle(listed)
            found, count = {}, 0
            for line in set_lines.lines_by_slots("s", 50, 7, dict(listed)):
                word, name, time, *numbers = line.decode().split(" ")
                self.assertEqual((word, name), ("set", "s"))
                self.assertLessEqual(len(numbers), 256)
                found.update({(int(time) - 50) // 7 + at: int(number) for at, number in enumerate(numbers)})
                count += len(numbers)
            self.assertEqual((found, count), (values, len(values)))


class Queries(unittest.TestCase):
    def test_trees(self):
        tree = promql.parse('avg_over_time(a:b{c="d", e!~"f|g"}[1h30m]) + 2 * (x - -3)')
        self.assertEqual(tree.sign, "+")
        self.assertEqual((tree.left.name, tree.left.selector.range), ("avg_over_time", 5400 * 10**9))
        self.assertEqual([(one.label, one.sign, one.value) for one in tree.left.selector.matchers], [
            ("__name__", "=", "a:b"), ("c", "=", "d"), ("e", "!~", "f|g"),
        ])
        for text in ("sum by (a, b) (x)", "sum(x) by (a,b)", "SUM by(a,b,)(x)"):
            self.assertEqual(promql.parse(text)[:3], ("sum", True, ("a", "b")))
        self.assertEqual([one.value for one in promql.selector('{"w x", \'h-n\'="a\\n\\u00e4"}')], ["w x", "a\nä"])

    def test_what_isnt_understood_says_what_is(self):
        for text in (
            "", "1" + "+1" * 200, "rate(a[5m])", "a[5m", "a offset 5m", "a @ 1", "a and b", "a > 1", "a ^ 2", "topk(1, a)", "min_over_time(a)",
            "min_over_time(a[5m:1m])",
            '{}', '{a=~".*"}', "a{b=c}", "a b", "1 +", "(a", 'a{b="c"', "a[5]", "a[0s]", "a{b=~\"(c+)+\"}", "a{b=~\"(\"}", "(" * 100 + "a" + ")" * 100,
            'a{b="\\q"}', "$x", "a{b=~\"(?=x)\"}", "a" * 30000, 'a{b=~".*.*.*.*.*"}', "a[40y]", 'a{b="\\UFFFFFFFF"}',
        ):
            with self.subTest(text[:40]), self.assertRaises(promql.Wrong):
                promql.parse(text)
        with self.assertRaisesRegex(promql.Wrong, "avg_over_time"):
            promql.parse("rate(a[5m])")

    def test_matchers(self):
        for sign, value, fits, others in (
            ("=", "a", ["a"], ["b", "", "aa"]), ("!=", "a", ["b", ""], ["a"]), ("=~", "a|b.*", ["a", "bc", "b"], ["ab", ""]),
            ("!~", "a|b.*", ["ab", ""], ["a", "bc"]), ("=~", "", [""], ["a"]), ("=~", "(host[0-9]+|x)", ["host12", "x"], ["host", "xx"]),
        ):
            one = matching.Matcher("l", sign, value)
            self.assertTrue(all(one.accepts(text) for text in fits) and not any(one.accepts(text) for text in others), (sign, value))


if __name__ == "__main__":
    unittest.main()
