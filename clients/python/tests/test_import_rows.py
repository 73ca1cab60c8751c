"""`zurtkvani import` takes rows by columns: over random files with every oddity it does what a model does row by row."""
import csv
import io
import os
import random
import sys
import tempfile
import unittest
from datetime import datetime, timedelta, timezone
from fractions import Fraction

sys.path.insert(0, os.path.dirname(os.path.dirname(os.path.realpath(__file__))))

from zurtkvani_client import command, importing  # noqa: E402
from zurtkvani_client.decimal_columns import whole_numbers  # noqa: E402
from zurtkvani_client.decimals import MISSING, whole_number  # noqa: E402
from zurtkvani_client.progress import Progress  # noqa: E402
from zurtkvani_client.report import Report  # noqa: E402
from zurtkvani_client.set_lines import TAKEN, SetLines  # noqa: E402
from zurtkvani_client.timestamps import UNITS, TimeReader, date_text  # noqa: E402
from zurtkvani_client.unfit import Unfit  # noqa: E402

VALUES = "|-|nan|NA|inf|1e3|1e-400|1_0|--5|+5|5+| 7.5|7. 5|.5|5.|.|-|-0.0|1.2.3|\u0663|1000000000000000001|-999999999999999999"
VALUES += "|2.5|-0.5|0.125|2.500000000000000000000001|2.64000000000000000000|12345678901234.5|999999999999999.5|1234567890123456|0x1|\t5|a"
TIMES = "|x|2026-13-01|2026-11-01|2026-11-01T00:00|2026-11-01T00:00:61Z|1793491200.5|-5|2026-11-01T00:00:00.1234567Z"
TIMES += "|2026-11-01 00:00:00,5| 2026-11-01T00:00:00Z|2026-11-01T00:00:00+0130|9999-12-31T23:59:59Z|2026-11-01t00:00:00z|1793491200."
FORMS = {
    "iso": lambda at: at.isoformat(timespec="milliseconds").replace("+00:00", "Z"),
    "naive": lambda at: at.strftime("%Y-%m-%d %H:%M:%S"),
    "offset": lambda at: at.astimezone(timezone(timedelta(hours=2))).isoformat(),
    "number": lambda at: str(int(at.timestamp())),
    "fixed": lambda at: f"{at.timestamp():.3f}",
    "mixed": lambda at: random.Random(at.second).choice([datetime.isoformat, lambda at: at.strftime("%Y-%m-%d %H:%M")])(at),
}


def random_file(source):
    """The text of a file, and words for its import."""
    form, step = FORMS[source.choice(list(FORMS))], timedelta(seconds=source.choice([1, 60, 600]))
    jitter, spoilt = source.choice([0, 0.2, 0.7]), source.choice([0, 0.001, 0.1])
    ragged, empty, quoted, again = (source.choice([0, 0, rate]) for rate in (0.05, 0.05, 0.01, 0.1))
    spellings = [source.choice([".2f", ".0f", ".17f", ".1f", ".4E"]) for _ in range(source.choice([1, 3]))]
    at, level, rows = datetime(2026, 10, 24, 22, tzinfo=timezone.utc), source.uniform(-100, 100), []
    mark = source.choice(",;\t")
    for _ in range(source.choice([2, 40, 700, 5000])):
        at += step * (source.random() >= again) * source.choice([1] * 99 + [300])
        level += source.uniform(-1, 1)
        fields = [form(at + step * jitter * source.uniform(-1, 1)), *(format(level, spelling) for spelling in spellings)]
        odd = [source.choice((VALUES if index else TIMES).split("|")) for index in range(len(fields))]
        fields = [one if source.random() < spoilt else field for one, field in zip(odd, fields)]
        if source.random() < ragged:
            fields = fields[: source.randrange(len(fields))] or fields + ["x"]
        line = mark.join(f'"{field}"' if source.random() < quoted else field for field in fields)
        rows.append(line if source.random() >= empty else source.choice(["", mark, mark * len(spellings)]))
    words = ["--series", ",".join("abc"[: len(spellings)]), "--delimiter", mark]
    words += source.choice([[], ["--exact"], ["--snap", "floor"], ["--tolerance", "100ms"], ["--replace"]])
    words += source.choice([[], ["--scale", "1"], ["--zone", "Europe/Zurich"], ["--step", "7s"]])
    head = mark.join(["time", *"uvw"[: len(spellings)]])
    return source.choice(["\n", "\n", "\r\n", "\r"]).join([head, *rows]), words


class ByRows:
    """An import of the rows of a text, one by one and by fractions."""

    def __init__(self, plan, given, name):
        self.plan, self.given, self.name, self.report, self.lines = plan, given, name, Report(), []
        self.grids = [(grid, [(target, SetLines(target.series, grid.step)) for target in targets]) for grid, targets in plan.groups]

    def leave_out(self, kind, line, what):
        self.report.left_out += 1
        self.report.note(kind, (self.name, line), what)

    def run(self, text):
        self.report.counts, self.report.first = {}, {}
        reader = csv.reader(io.StringIO(text, newline=""), delimiter=self.given.delimiter)
        next(reader)
        for fields in reader:
            if any(fields):
                self.report.rows += 1
                self.row(fields, reader.line_num)
        self.lines += [line for _, targets in self.grids for _, series in targets for line in [series.line()] if line]

    def row(self, fields, line):
        if len(fields) > self.plan.width and any(map(str.strip, fields[self.plan.width :])):
            self.leave_out(importing.NO_NAME, line, f"it has {len(fields)} fields")
        if self.plan.time_index >= len(fields):
            return self.leave_out(importing.NO_COLUMN, line, f"it has {len(fields)} fields")
        try:
            time = self.plan.read_time(fields[self.plan.time_index].strip())
        except Unfit as why:
            return self.leave_out(importing.NO_TIME, line, why)
        for grid, targets in self.grids:
            exact = Fraction(time - grid.first, grid.gap)
            slot = int(exact // 1) + (self.given.snap == "nearest" and exact % 1 >= Fraction(1, 2))
            if abs(exact - slot) * grid.gap > grid.tolerance:
                self.leave_out(importing.NO_SLOT, line, f"{date_text(time)} lies between two slots")
            elif not 0 <= slot < 2**35:
                where = "before the start" if slot < 0 else "too far behind the start"
                self.leave_out(importing.NO_SLOT, line, f"{date_text(time)} lies {where}")
            else:
                if exact != slot:
                    self.report.note(importing.SNAPPED, (self.name, line), date_text(time))
                for target, series in targets:
                    self.value(target, series, fields, grid.start + slot * grid.step, line)
        return None

    def value(self, target, series, fields, time, line):
        if target.index >= len(fields):
            return self.leave_out(importing.NO_COLUMN, line, f"it has {len(fields)} fields")
        text = fields[target.index]
        try:
            number, is_rounded = whole_number(text.replace(",", ".") if self.plan.has_commas else text, target.scale)
        except Unfit as why:
            return None if text.strip().lower() in MISSING else self.leave_out(importing.NO_VALUE, line, why)
        if is_rounded and self.given.exact:
            return self.leave_out(importing.TOO_FINE, line, f"{text!r} has more than {target.scale} decimals")
        if is_rounded:
            self.report.note(importing.ROUNDED, (self.name, line), text)
        ended = series.add(time, number)
        if ended is TAKEN:
            note = self.report.note if self.given.replace else lambda kind, place, what: self.leave_out(kind, line, what)
            note(importing.REPLACED, (self.name, line), f"{target.series}, {text}")
        elif ended:
            self.lines.append(ended)
        return None


class RowsByColumns(unittest.TestCase):
    def test_random_files(self):
        kinds = set()
        with tempfile.TemporaryDirectory() as folder:
            path = os.path.join(folder, "a.csv")
            for seed in range(60):
                text, words = random_file(random.Random(seed))
                with open(path, "w", encoding="utf-8", newline="") as file:
                    file.write(text)
                given = command.words().parse_args(["import", path, "--store", os.path.join(folder, "none"), "--dry-run", *words])
                given.snap = "none" if given.exact else given.snap
                done, lines = importing.Import(given, Progress()), []
                sent = done.lines
                done.lines = lambda sources, sent=sent, lines=lines: map(lines.append, sent(sources))
                try:
                    done.run()
                except Unfit:
                    self.assertEqual(lines, [])
                    continue
                done.plan.read_time.before = None
                model = ByRows(done.plan, given, path)
                told = [done.report.rows, done.report.left_out, done.report.counts, done.report.first, lines]
                model.run(text)
                wanted = [model.report.rows, model.report.left_out, model.report.counts, model.report.first, model.lines]
                kinds.update(told[2])
                for one, other in zip(told, wanted):
                    self.assertEqual(one, other, seed)
        every = {importing.ROUNDED, importing.SNAPPED, importing.NO_COLUMN, importing.NO_TIME, importing.NO_VALUE, importing.NO_SLOT}
        self.assertLessEqual(every | {importing.NO_NAME, importing.TOO_FINE, importing.REPLACED}, kinds)


class Columns(unittest.TestCase):
    def one_by_one(self, read, texts):
        outcomes = []
        for text in texts:
            try:
                outcomes.append(read(text))
            except Unfit as why:
                outcomes.append(str(why))
        return outcomes

    def test_decimals_by_floats_are_those_by_decimals(self):
        source = random.Random(2)
        for scale in range(10):
            for digits in range(1, 20):
                texts = [f"{source.choice(['', '-'])}{source.randrange(10**digits)}.{source.randrange(10**9)}"[:18] for _ in range(40)]
                ends = ["5", "49999999", "50000001", "25", "75"]
                wholes = [source.randrange(10 ** min(digits, 14)) for _ in range(20)]
                texts += [f"{whole}.{source.randrange(10**scale):0{scale or 1}}{end}" for whole, end in zip(wholes, ends * 4)]
                numbers, rounded, unfit = whole_numbers(texts, scale)
                outcomes = [str(unfit[at]) if at in unfit else (numbers[at], at in rounded) for at in range(len(texts))]
                self.assertEqual(outcomes, self.one_by_one(lambda text, scale=scale: whole_number(text, scale), texts), (scale, digits))

    def test_each_odd_value_among_plain_ones(self):
        for text in VALUES.split("|"):
            texts = ["1.5", text, "2.25", "-3"]
            numbers, rounded, unfit = whole_numbers(texts, 1)
            wanted = self.one_by_one(lambda text: whole_number(text, 1), texts)
            self.assertEqual(set(unfit), {1} if isinstance(wanted[1], str) else set(), text)
            outcomes = [str(unfit[at] or wanted[at]) if at in unfit else (numbers[at], at in rounded) for at in range(4)]
            self.assertEqual(outcomes, wanted, text)
            self.assertEqual([why is None for why in unfit.values()], [text.strip().lower() in MISSING] * len(unfit))

    def test_each_odd_time_among_plain_ones(self):
        start = datetime(2026, 10, 25, tzinfo=timezone.utc)
        for form in FORMS.values():
            for text in TIMES.split("|"):
                texts = [form(start), text, form(start + timedelta(minutes=90))]
                for unit in UNITS:
                    times, unfit = TimeReader(unit).all(texts)
                    outcomes = [str(unfit[at]) if at in unfit else times[at] for at in range(3)]
                    self.assertEqual(outcomes, self.one_by_one(TimeReader(unit), map(str.strip, texts)))


if __name__ == "__main__":
    unittest.main()
