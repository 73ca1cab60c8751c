"""Readings with dates, to the lines of `load`; and the example of the README."""
import importlib.util
import io
import os
import re
import subprocess
import sys
import tempfile
import unittest
from contextlib import redirect_stderr, redirect_stdout

ROOT = os.path.dirname(os.path.dirname(os.path.dirname(os.path.dirname(os.path.realpath(__file__)))))
PROGRAM = os.path.join(ROOT, "crates/chart_program/out/chart_program")
sys.path.insert(0, os.path.join(ROOT, "clients/python"))

from zurtkvani_client import readings  # noqa: E402


def converted(text, *words):
    """The exit status, and what is sent and told."""
    with tempfile.NamedTemporaryFile("wb", suffix=".csv") as file:
        file.write(text if isinstance(text, bytes) else text.encode())
        file.flush()
        sent, told = io.StringIO(), io.StringIO()
        with redirect_stdout(sent), redirect_stderr(told):
            status = readings.main([*words, file.name])
    return status, sent.getvalue(), told.getvalue().splitlines()


class Readings(unittest.TestCase):
    def test_dates(self):
        # Known moments: 2000-03-01 is 951868800, and 1969-12-31T23:59 is -60.
        cases = {
            "2000-03-01": "951868800",
            "2000-03-01T00:00": "951868800",
            "2000-03-01 00:00:00Z": "951868800",
            "2000-03-01T01:00:00+01:00": "951868800",
            "2000-02-29T19:00:00-0500": "951868800",
            "2000-03-01T05:30:00.000+05:30": "951868800",
            "951868800": "951868800",
            "951868800.0": "951868800",
            "1969-12-31T23:59:00Z": "-60",
        }
        for date, time in cases.items():
            self.assertEqual(converted(f"{date},1\n", "--step", "1")[:2], (0, f"{time},1\n"), date)

    def test_milliseconds(self):
        self.assertEqual(converted("951868800500,1\n", "--step", "500", "--read", "milliseconds", "--write", "milliseconds")[1], "951868800500,1\n")
        self.assertEqual(converted("951868800000,1\n", "--step", "1", "--read", "milliseconds")[1], "951868800,1\n")
        self.assertEqual(converted("2000-03-01T00:00:00.25Z,1\n", "--step", "1", "--write", "milliseconds")[1], "951868800250,1\n")
        status, sent, told = converted("951868800500,1\n", "--step", "1", "--read", "milliseconds")
        self.assertEqual((status, sent), (1, ""))
        self.assertEqual(told[0], "line 1: '951868800500' is no whole time of the series")

    def test_decimals(self):
        cases = {"1.5": "1.50", "-0.07": "-0.07", "+2": "2.00", "2.15e1": "21.50", ".5": "0.50", "3.": "3.00", "1.500": "1.50"}
        for value, written in cases.items():
            self.assertEqual(converted(f"0,{value}\n", "--step", "1", "--scale", "2")[1], f"0,{written}\n", value)
        self.assertEqual(converted("0;1,5\n", "--step", "1", "--scale", "1", "--delimiter", ";", "--decimal-comma")[1], "0,1.5\n")
        self.assertEqual(converted(f"0,{10**18}\n", "--step", "1")[1], f"0,{10**18}\n")

    def test_what_does_not_fit_is_listed_by_line(self):
        text = "\ufefftime,value\n60,1\n\n61,2\n0,3\n120,x\n120,1.25\n120\n180,inf\n180,\n240,NaN\n2000-13-01,1\n180,4\n" + f"180,{10**18}1\n"
        status, sent, told = converted(text, "--step", "60", "--scale", "1")
        self.assertEqual((status, sent), (1, "60,1.0\n180,4.0\n"))
        self.assertEqual([line.partition(":")[0] for line in told], [f"line {n}" for n in (1, 4, 5, 6, 7, 8, 9, 12, 14)] + ["readings"])
        self.assertEqual(told[-1], "readings: 2 readings, 2 times without one, 8 lines that don't fit; the series: create NAME 60 60 1")

    def test_a_first_row_of_data_is_no_header(self):
        status, sent, told = converted('01.11.2026 00:00,"21,5"\n0,1\n', "--step", "1")
        self.assertEqual((status, sent), (1, "0,1\n"))
        self.assertEqual(told[0], "line 1: '01.11.2026 00:00' is no time")
        self.assertEqual(converted("when,degrees_2\n0,1\n", "--step", "1")[2][0], "line 1: taken as the names of the columns")

    def test_a_slot_that_no_series_has(self):
        status, sent, told = converted(f"0,1\n{2**35 - 1},2\n{2**35},3\n", "--step", "1")
        self.assertEqual((status, sent), (1, f"0,1\n{2**35 - 1},2\n"))
        self.assertEqual(told[0], "line 3: '34359738368' lies too far behind the start")

    def test_dry_run(self):
        status, sent, told = converted("0,1\n1,x\n", "--step", "1", "--dry-run")
        self.assertEqual((status, sent, len(told)), (1, "", 2))

    def test_load_takes_what_is_sent(self):
        text = "date,degrees\n" + "".join(f"2023-01-01T{n // 60:02}:{n % 60:02}:00Z,{n / 4}\n" for n in range(600))
        sent = converted(text, "--step", "60", "--scale", "2", "--start", "2023-01-01")[1]
        with tempfile.TemporaryDirectory() as folder:
            store = os.path.join(folder, "a.store")
            with open(store, "wb") as file:
                file.truncate(4096 * 256)
            subprocess.run([PROGRAM, store, "init"], check=True)
            subprocess.run([PROGRAM, store, "run"], input=b"create a 1672531200 60 2\n", stdout=subprocess.PIPE, check=True)
            loaded = subprocess.run([PROGRAM, store, "load", "a"], input=sent.encode(), stdout=subprocess.PIPE, check=True).stdout
            checked = subprocess.run([PROGRAM, store, "check"], stdout=subprocess.PIPE, check=True).stdout
        self.assertEqual(loaded, b"loaded 600\n")
        self.assertEqual(checked.splitlines()[1], b"values 600")


class Readme(unittest.TestCase):
    @unittest.skipUnless(importlib.util.find_spec("ensurepip"), "there is no ensurepip, of Debian's python3-venv")
    def test_its_examples_run_as_typed(self):
        with open(os.path.join(ROOT, "clients/python/README.md"), encoding="utf-8") as file:
            text = file.read()
        examples = re.findall(r"^```\n(.*?)^```\n\n((?:    [^\n]*\n)+)", text, re.MULTILINE | re.DOTALL)
        self.assertEqual(len(examples), 3)
        with tempfile.TemporaryDirectory() as folder:
            os.symlink(PROGRAM, os.path.join(folder, "chart"))
            subprocess.run([sys.executable, "-m", "venv", os.path.join(folder, "env")], check=True)
            pip = [os.path.join(folder, "env/bin/pip"), "--isolated", "--no-cache-dir", "--disable-pip-version-check"]
            subprocess.run([*pip, "install", "-q", "--no-index", os.path.join(ROOT, "clients/python")], check=True)
            for commands, shown in examples:
                done = subprocess.run(["bash", "-c", commands], cwd=folder, stdout=subprocess.PIPE, stderr=subprocess.STDOUT, text=True)
                self.assertEqual(done.stdout, re.sub("^    ", "", shown, flags=re.MULTILINE))


if __name__ == "__main__":
    unittest.main()
