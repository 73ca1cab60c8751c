"""numpy and pandas in and out of a store, and a notebook; passed over where they aren't installed."""
import base64
import contextlib
import importlib.util
import io
import json
import os
import subprocess
import sys
import tempfile
import unittest

from waiting import SECONDS

ROOT = os.path.dirname(os.path.dirname(os.path.dirname(os.path.dirname(os.path.realpath(__file__)))))
PROGRAM = os.path.join(ROOT, "crates/chart_program/out/chart_program")
sys.path.insert(0, os.path.join(ROOT, "clients/python"))

from zurtkvani_client import Store, command  # noqa: E402

HAS_PANDAS = importlib.util.find_spec("pandas") is not None
HAS_NOTEBOOK = all(importlib.util.find_spec(name) for name in ("nbconvert", "nbformat", "ipykernel", "pandas"))
if HAS_PANDAS:
    import numpy
    import pandas

NOTEBOOK = """
import sys
sys.path.insert(0, {package!r})
import pandas
from zurtkvani_client import Store
frame = pandas.DataFrame({{"level": [1.5, None, 2.25, 7.0]}}, index=pandas.date_range("2026-11-01", periods=4, freq="min", tz="UTC"))
with Store.make({path!r}, program={program!r}) as store:
    store.create_from("level", frame["level"])
    picture = store.draw("level", 200, 50)
assert store.to_series("level").equals(frame["level"].dropna().rename("level")), store.to_series("level")
picture
"""


@unittest.skipUnless(HAS_PANDAS, "pandas isn't installed")
class Pandas(unittest.TestCase):
    def setUp(self):
        folder = tempfile.TemporaryDirectory()
        self.addCleanup(folder.cleanup)
        self.folder, self.path = folder.name, os.path.join(folder.name, "a.store")

    def make(self, **named):
        return Store.make(self.path, program=PROGRAM, **named)

    def test_arrays_with_missing_values(self):
        with self.make() as store:
            store.create("a", "2026-11-01", 1, 2)
            store.append("a", numpy.array([1.5, numpy.nan, 2.675, -0.125]))
            store.append("a", numpy.array([7, 8], dtype="uint8"))
            store.append("a", pandas.array([3, None], dtype="Int64"))
            store.append("a", pandas.Series([0.25, None]))
            store.append("a", numpy.ma.masked_array([1.0, 2.0], mask=[True, False]))
            store.append("a", [1.25, None, float("nan")])
            store.set("a", pandas.Timestamp("2026-11-01 00:00:01"), numpy.array([4.5, numpy.nan, 9.0]))
            store.clear("a", numpy.datetime64("2026-11-01T00:00:00"), 1)
            for bad in ([1.5, 2], [float("inf")], numpy.array([1e300]), ["1"], numpy.array(1.0), numpy.zeros((2, 2))):
                with self.assertRaises((TypeError, ValueError)):
                    store.append("a", bad)
        values = dict(store.values("a"))
        start = min(values) - 1
        self.assertEqual(start, 1793491200)
        stored = {1: 450, 2: 268, 3: 900, 4: 7, 5: 8, 6: 3, 8: 25, 11: 200, 12: 125}
        self.assertEqual({time - start: value for time, value in values.items()}, stored)
        self.assertEqual([series.slots for series in store.series()], [15])

    def test_many_values_go_in_bulk_and_come_back(self):
        numbers = numpy.random.default_rng(1).normal(20, 5, 30_000).round(3)
        numbers[[0, 255, 256, 700, 29_999]] = numpy.nan
        with self.make() as store:
            store.create("a", 0, 1, 3)
            store.append("a", numbers[:9])
            store.append("a", numbers[9:])
            store.append("a", [None] * 600)
            self.assertEqual(store.series()[0].slots, 30_600)
        series = store.to_series("a")
        self.assertTrue((series.to_numpy() == numbers[~numpy.isnan(numbers)]).all())
        self.assertEqual(str(series.index[0]), "1970-01-01 00:00:01+00:00")

    def test_a_series_with_dates(self):
        index = pandas.date_range("2026-11-01", periods=5, freq="250ms", tz="Europe/Zurich")
        values = pandas.Series([1.25, 2.5, None, 4.0, 5.0], index=index, name="a")
        with self.make() as store:
            store.create_from("a", values)
            store.put("a", values + 1)
            with self.assertRaises(ValueError):
                store.put("a", pandas.Series([1.0, 2.0], index=index[:2] - pandas.Timedelta("1d")))
            with self.assertRaises(TypeError):
                store.put("a", pandas.Series([1.0]))
            for bad in (None, values.to_frame(), values.fillna(numpy.inf), values.astype("object").fillna("x"), values.iloc[[0, 0, 1]]):
                with self.assertRaises((TypeError, ValueError)):
                    store.create_from("b", bad)
            with self.assertRaisesRegex(ValueError, "a date is missing"):
                store.create_from("b", pandas.Series([1.0, 2.0, 3.0], index=[index[0], pandas.NaT, index[1]]))
            self.assertEqual(store.series(), [("a", index[0].value // 10**6, 250, 2, 5)])
        back = store.to_series("a")
        self.assertTrue(back.equals((values + 1).dropna().tz_convert("UTC")))
        self.assertTrue(store.to_series("a", index[1], index[3]).equals(back.iloc[1:2]))

    def test_views_of_dates_and_real_values(self):
        index = pandas.date_range("2026-11-01", periods=1000, freq="s")
        values = pandas.Series(numpy.sin(numpy.arange(1000) / 50).round(2), index=index)
        with self.make() as store:
            store.create_from("a", values)
            with store.session() as session:
                everything = session.view("a")
                self.assertEqual((everything.low, everything.high), (values.min(), values.max()))
                self.assertEqual(everything.window, (1793491200, 1793492200))
                part = session.view("a", 100, 20, index[100], "2026-11-01T00:05:00Z", range=(0.0, 0.5))
                self.assertEqual((part.lo, part.hi, part.window), (0, 50, (1793491300, 1793491500)))
            points = store.points("a", 10)
        self.assertEqual(len(points), 10)
        for at, point in enumerate(points):
            part = values.iloc[100 * at : 100 * at + 100]
            self.assertEqual(point, (1793491200 + 100 * at, part.iloc[0], part.min(), part.max(), part.iloc[-1]))
        svg = everything.to_svg()
        self.assertIn(base64.b64encode(everything.to_png()).decode(), svg)
        self.assertIn(">00:05<", svg)
        self.assertIn(">0.5<", svg)

    def test_an_import_rounds_as_pandas_does(self):
        random = numpy.random.default_rng(7)
        times = pandas.date_range("2026-11-01", periods=2000, freq="s")
        jitter = pandas.to_timedelta(random.normal(0, 80, 2000).clip(-400, 400), unit="ms")
        frame = pandas.DataFrame(random.normal([20, 1, -300], [3, 0.1, 80], (2000, 3)), index=times + jitter, columns=["a", "b", "c"])
        path = os.path.join(self.folder, "a.csv")
        frame.to_csv(path, index_label="time")
        with contextlib.redirect_stdout(io.StringIO()):
            status = command.main(["import", path, "--store", self.path, "--program", PROGRAM, "--scale", "2"])
        self.assertEqual(status, 0)
        for name in frame:
            stored = Store(self.path, program=PROGRAM).to_series(name)
            self.assertTrue((stored.index == times.tz_localize("UTC")).all())
            self.assertTrue((stored.to_numpy() == frame[name].round(2).to_numpy()).all())

    @unittest.skipUnless(HAS_NOTEBOOK, "nbconvert or ipykernel isn't installed")
    def test_a_notebook(self):
        import nbformat.v4 as notebooks

        source = NOTEBOOK.format(package=os.path.join(ROOT, "clients/python"), path=self.path, program=PROGRAM)
        path = os.path.join(self.folder, "a.ipynb")
        with open(path, "w", encoding="utf-8") as file:
            json.dump(notebooks.new_notebook(cells=[notebooks.new_code_cell(source)]), file)
        guards = [f"--ExecutePreprocessor.{name}={SECONDS}" for name in ("timeout", "startup_timeout")]
        run = [sys.executable, "-m", "nbconvert", "--to", "notebook", "--execute", "--inplace", *guards, path]
        # What it keeps in somebody's folder it keeps in that of the test.
        done = subprocess.run(run, stdout=subprocess.PIPE, stderr=subprocess.STDOUT, text=True, env={**os.environ, "HOME": self.folder})
        self.assertEqual(done.returncode, 0, done.stdout)
        with open(path, encoding="utf-8") as file:
            data = json.load(file)["cells"][0]["outputs"][0]["data"]
        with Store(self.path, program=PROGRAM) as store:
            picture = store.draw("level", 200, 50)
        self.assertEqual(base64.b64decode(data["image/png"]), picture.to_png())
        self.assertIn(base64.b64encode(picture.to_png()).decode(), "".join(data["image/svg+xml"]))


if __name__ == "__main__":
    unittest.main()
