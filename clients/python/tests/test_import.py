"""`zurtkvani import`: files as people have them, into a store of the built program."""
import contextlib
import gzip
import io
import json
import os
import pty
import re
import shutil
import signal
import subprocess
import sys
import tempfile
import types
import unittest
from datetime import datetime, timedelta, timezone
from unittest import mock

from waiting import SECONDS, until

ROOT = os.path.dirname(os.path.dirname(os.path.dirname(os.path.dirname(os.path.realpath(__file__)))))
PROGRAM = os.path.join(ROOT, "crates/chart_program/out/chart_program")
sys.path.insert(0, os.path.join(ROOT, "clients/python"))

from zurtkvani_client import Store, command  # noqa: E402
from zurtkvani_client.progress import bar  # noqa: E402

LOGGER = (
    "when,temp_C,pressure bar,state\n"
    "2026-11-01T00:00:00.123Z,21.499999999999996,1.01,ok\n"
    "2026-11-01T00:00:01.020Z,21.6,1.02,ok\n"
    "2026-11-01T00:00:01.980Z,,1.03,ok\n"
    "2026-11-01T00:00:03.301Z,21.75,1.035,bad\n"
)
START = 1793491200  # 2026-11-01T00:00:00Z


class ParquetFile:
    """A stand-in for that of pyarrow, which Debian doesn't have: the few calls that are used of it, over a file in JSON behind the
    letters by which Parquet is known. It shows how they are used, and not that pyarrow's own do the same."""

    def __init__(self, file):
        assert file.read(4) == b"PAR1"
        self.table = json.load(file)
        self.schema_arrow = types.SimpleNamespace(names=list(self.table))
        self.metadata = types.SimpleNamespace(num_rows=len(self.table["at"]))

    def iter_batches(self, batch_size):
        self.table["at"] = [datetime.fromisoformat(date) for date in self.table["at"]]
        for begin in range(0, self.metadata.num_rows, batch_size):
            parts = (values[begin : begin + batch_size] for values in self.table.values())
            yield types.SimpleNamespace(columns=[types.SimpleNamespace(to_pylist=lambda part=part: part) for part in parts])


class Imports(unittest.TestCase):
    def setUp(self):
        folder = tempfile.TemporaryDirectory()
        self.addCleanup(folder.cleanup)
        self.folder, self.path = folder.name, os.path.join(folder.name, "a.store")

    def file(self, text, name="a.csv"):
        path = os.path.join(self.folder, name)
        with open(path, "wb") as file:
            file.write(text if isinstance(text, bytes) else text.encode())
        return path

    def taken(self, text, *words, files=()):
        """The exit status of an import, and what it told; a text is a file's."""
        told = io.StringIO()
        paths = [self.file(text)] if not files else [self.file(data, f"{at}.csv") for at, data in enumerate(files)]
        with contextlib.redirect_stdout(told), contextlib.redirect_stderr(told):
            try:
                status = command.main(["import", *paths, "--store", self.path, "--program", PROGRAM, *words])
            except SystemExit as end:
                status = end.code
        return status, told.getvalue()

    def stored(self, name):
        return list(Store(self.path, program=PROGRAM).values(name))

    def series(self):
        return Store(self.path, program=PROGRAM).series()

    def test_a_logger_with_jitter_and_floats(self):
        status, told = self.taken(LOGGER)
        self.assertEqual(status, 0, told)
        self.assertEqual(self.series(), [("temp_C", START, 1, 2, 4), ("pressure_bar", START, 1, 3, 4)])
        self.assertEqual(self.stored("temp_C"), [(START, 2150), (START + 1, 2160), (START + 3, 2175)])
        self.assertEqual(self.stored("pressure_bar"), [(START, 1010), (START + 1, 1020), (START + 2, 1030), (START + 3, 1035)])
        kinds = ("rounded, half to even: 1", "moved to a slot: 4", "column passed over: 1")
        for line in (*kinds, "temp_C: 3 taken, 1 without a value", "line 2: 21.499999999999996"):
            self.assertIn(line, told)

    def test_exact_refuses_what_would_be_moved_or_rounded(self):
        status, told = self.taken(LOGGER, "--exact", "--start", "2026-11-01", "--step", "1s", "--scale", "2", "--columns", "temp_C")
        self.assertEqual(status, 1)
        self.assertIn("left out, no slot: 4", told)
        status, told = self.taken("t,v\n0,1.25\n1,1.250\n2,1.5\n3,2\n", "--exact", "--scale", "1", "--step", "1")
        self.assertEqual((status, self.stored("v")), (1, [(2, 15), (3, 20)]))
        self.assertIn("left out, more decimals than the series: 2", told)

    def test_half_goes_to_even(self):
        text = "t,v\n0,0.5\n1,1.5\n2,2.5\n3,-0.5\n4,-1.5\n5,2.500000000000000000000000000000000001\n6,0.49999999999999999999999999999\n"
        status, _ = self.taken(text, "--scale", "0")
        self.assertEqual((status, self.stored("v")), (0, [(0, 0), (1, 2), (2, 2), (3, 0), (4, -2), (5, 3), (6, 0)]))

    def test_snap_and_tolerance(self):
        text = "t,v\n0,0\n9,1\n21,2\n25,3\n34,4\n"
        words = ("--step", "10", "--start", "0", "--unit", "seconds")
        self.assertEqual(self.taken(text, *words)[0], 1)
        # 25 lies half a step from both, so it goes to 30 with 34.
        self.assertEqual(self.stored("v"), [(0, 0), (10, 1), (20, 2), (30, 4)])
        os.remove(self.path)
        self.assertEqual(self.taken(text, *words, "--snap", "floor", "--replace")[0], 0)
        self.assertEqual(self.stored("v"), [(0, 1), (20, 3), (30, 4)])
        os.remove(self.path)
        status, told = self.taken(text, *words, "--tolerance", "1s")
        self.assertEqual((status, self.stored("v")), (1, [(0, 0), (10, 1), (20, 2)]))
        self.assertIn("left out, no slot: 2", told)

    def test_german_dates_and_commas(self):
        text = "Zeit;Temperatur\n01.11.2026 00:00;21,5\n01.11.2026 00:10;22,25\n"
        status, told = self.taken(text)
        self.assertEqual(status, 2)
        self.assertIn("--form", told)
        self.assertFalse(os.path.exists(self.path))
        self.assertEqual(self.taken(text, "--form", "%d.%m.%Y %H:%M", "--zone", "Europe/Zurich")[0], 0)
        self.assertEqual(self.series(), [("Temperatur", START - 3600, 600, 2, 2)])
        self.assertEqual(self.stored("Temperatur"), [(START - 3600, 2150), (START - 3000, 2225)])

    def test_the_hour_that_clocks_have_twice(self):
        # In Zurich 2026-10-25T03:00 summer time is 02:00 winter time: 2026-10-25T01:00:00Z, which is 1792890000.
        hours = ["01:30", "02:00", "02:30", "02:00", "02:30", "03:00"]
        text = "time,v\n" + "".join(f"2026-10-25 {hour},{at}\n" for at, hour in enumerate(hours))
        self.assertEqual(self.taken(text, "--zone", "Europe/Zurich")[0], 0)
        self.assertEqual(self.stored("v"), [(1792890000 + 1800 * (at - 3), at) for at in range(6)])
        text = "time,w\n2026-03-29 02:30,1\n2026-03-29 03:30,1\n"
        status, told = self.taken(text, "--zone", "Europe/Zurich", "--step", "30min")
        self.assertEqual(status, 1)
        self.assertIn("left out by the clocks of Europe/Zurich", told)

    def test_units(self):
        self.assertEqual(self.taken("t,v\n1793491200000,1\n1793491200500,2\n")[0], 0)
        self.assertEqual(self.series()[0], ("v", START * 1000, 500, 0, 2))
        text = "t,u\n" + "".join(f"2026-11-01T00:00:00.00000{at},1\n" for at in (1, 3, 4))
        self.assertEqual(self.taken(text)[0], 0)
        self.assertEqual(self.series()[1], ("u", START * 10**6 + 1, 1, 0, 4))

    def test_nothing_is_lost_in_silence(self):
        text = "t,v\n0,1\nx,2\n1,3\n2,y\n3\n4,inf\n1e3,5\n5,10000000000000000000\n"
        status, told = self.taken(text, "--step", "1", "--start", "0")
        self.assertEqual((status, self.stored("v")), (1, [(0, 1), (1, 3)]))
        for line in ("left out, no time: 2", "left out, no value: 3", "left out, no such column: 1", "a.csv, line 3: 'x' is no time"):
            self.assertIn(line, told)
        status, told = self.taken("t,v\n-1,1\n0,4\n")
        self.assertEqual((status, self.stored("v")), (1, [(0, 4), (1, 3)]))
        self.assertIn("before the start", told)

    def test_more_fields_than_the_header_names(self):
        self.assertEqual(self.taken("t,v\n0,1,\n1,2,\n")[0], 0)
        status, told = self.taken("t,v\n2,3,\n3,4,5\n")
        self.assertEqual((status, self.stored("v")), (1, [(at, at + 1) for at in range(4)]))
        self.assertIn("left out, fields behind the last column: 1", told)
        self.assertEqual(self.taken("t,v\n0,a\n1,b\n", "--series", "w")[0], 2)

    def test_no_header(self):
        self.assertEqual(self.taken("0;1;2\n1;3;4\n")[0], 2)
        self.assertEqual(self.taken("0;1;2\n1;3;4\n", "--time", "2", "--columns", "3,1", "--series", "a,b")[0], 0)
        self.assertEqual((self.stored("a"), self.stored("b")), ([(1, 2), (3, 4)], [(1, 0), (3, 1)]))

    def test_columns_by_name_or_number(self):
        self.assertEqual(self.taken(LOGGER, "--time", "when", "--columns", "3", "--series", "p")[0], 0)
        self.assertEqual([series.name for series in self.series()], ["p"])
        status, told = self.taken(LOGGER, "--columns", "kettle")
        self.assertEqual(status, 2)
        self.assertIn("temp_C", told)

    def test_kin_of_csv(self):
        rows = "t{0}v{0}w\n0{0}1{0}2\n1{0}3{0}4\n"
        for at, mark in enumerate("\t;|,"):
            name = f"--series=a{at},b{at}"
            self.assertEqual(self.taken(rows.format(mark), name)[0], 0)
            self.assertEqual(self.stored(f"b{at}"), [(0, 2), (1, 4)])
        self.assertEqual(self.taken(rows.format(",").encode("utf-16"), "--series", "c,d")[0], 0)
        self.assertEqual(self.taken(gzip.compress(rows.format(",").encode()), "--series", "e,f")[0], 0)
        self.assertEqual(self.taken(("\ufeff" + rows.format(",")).replace("\n", "\r\n"), "--series", "g,h")[0], 0)
        for name in "dfh":
            self.assertEqual(self.stored(name), [(0, 2), (1, 4)])

    def test_parquet_by_a_stand_in(self):
        count = 30_000
        dates = [(datetime.fromtimestamp(START, timezone.utc) + timedelta(minutes=at)).isoformat() for at in range(count)]
        table = {"at": dates, "2m": [at / 4 if at % 3 else None for at in range(count)], "words": ["ok"] * count}
        file = b"PAR1" + json.dumps(table).encode()
        self.assertEqual(self.taken(file)[0], 2)
        parquet = types.ModuleType("pyarrow.parquet")
        parquet.ParquetFile = ParquetFile
        pyarrow = types.ModuleType("pyarrow")
        pyarrow.parquet = parquet
        with mock.patch.dict(sys.modules, {"pyarrow": pyarrow, "pyarrow.parquet": parquet}):
            status, told = self.taken(file)
        self.assertEqual(status, 0, told)
        self.assertIn("2m: 20,000 taken, 10,000 without a value", told)
        self.assertEqual(self.stored("2m"), [(START + 60 * at, 25 * at) for at in range(count) if at % 3])

    def test_a_quote_that_nothing_ends(self):
        status, told = self.taken("t,v\n0,1\n1,2\n2,\"3\n" + "3,4\n" * 50_000, "--step", "1")
        self.assertEqual(status, 2, told)
        self.assertIn("field larger than field limit", told)

    def test_a_file_of_gzip_that_was_cut(self):
        whole = gzip.compress("".join(["t,v\n", *(f"{at},{at % 97}\n" for at in range(60_000))]).encode())
        status, told = self.taken(whole[: len(whole) // 2])
        self.assertEqual(status, 1)
        read = int(re.search(r"([\d,]+) rows were read", told)[1].replace(",", ""))
        self.assertGreater(read, 20_000)
        stored = self.stored("v")
        self.assertEqual(stored, [(at, at % 97) for at in range(len(stored))])
        self.assertGreater(len(stored), read - 64 * 256)

    def test_a_file_of_gzip_that_was_damaged(self):
        whole = gzip.compress(LOGGER.encode())
        status, told = self.taken(whole[:30] + bytes(8) + whole[38:])
        self.assertEqual((status, told.startswith("zurtkvani: ")), (2, True), told)

    def test_wrong_words_are_told(self):
        for words in (("--step", "0"), ("--encoding", "base64")):
            status, told = self.taken(LOGGER, *words)
            self.assertEqual((status, f"argument {words[0]}: " in told), (2, True), told)

    def test_files_that_cant_be_used_are_named(self):
        self.assertIn("a.csv has no rows", self.taken("")[1])
        self.path = os.path.join(self.folder, "none", "a.store")
        self.assertEqual(self.taken(LOGGER), (2, f"zurtkvani: {self.folder}/none: No such file or directory\n"))

    def test_what_was_done_is_told_to_nobody(self):
        words = [sys.executable, "-m", "zurtkvani_client", "import", self.file(LOGGER), "--store", self.path, "--program", PROGRAM]
        with open("/dev/full", "wb") as full:
            done = subprocess.run(words, cwd=os.path.join(ROOT, "clients/python"), stdout=full, stderr=subprocess.PIPE, check=False)
        self.assertEqual((done.returncode, done.stderr.count(b"\n")), (1, 1), done.stderr)
        self.assertEqual(len(self.stored("temp_C")), 3)

    def test_standard_input(self):
        words = [sys.executable, "-m", "zurtkvani_client", "import", "-", "--store", self.path, "--program", PROGRAM]
        done = subprocess.run(words, input=LOGGER.encode(), cwd=os.path.join(ROOT, "clients/python"), stdout=subprocess.PIPE, check=True)
        self.assertIn(b"with room for", done.stdout)
        self.assertEqual(len(self.stored("temp_C")), 3)

    def test_several_files(self):
        files = ["t,v\n0,1\n1,2\n", "t,v\n2,3\n", "t,v\n"]
        self.assertEqual(self.taken("", files=files)[0], 0)
        self.assertEqual(self.stored("v"), [(0, 1), (1, 2), (2, 3)])
        self.assertEqual(self.taken("", files=["t,v\n0,1\n1,2\n", "t,w\n2,3\n"])[0], 2)

    def test_a_bar_on_a_terminal(self):
        self.assertEqual(bar(1500, 0.5, 3), f"[{'#' * 15}{'.' * 15}]  50%  1,500 rows, 500 a second, 0:03 left")
        self.assertEqual(bar(1500, None, 3), "1,500 rows, 500 a second")
        path = os.path.join(self.folder, "a.csv")
        words = ["zurtkvani_client.readings", "--step", "1", path], ["zurtkvani_client", "import", path, "--store", self.path, "--dry-run"]
        for command_words in words:
            # A bar is shown behind 0.2 seconds, in which a fast machine reads many rows.
            for count in (200_000, 800_000, 3_200_000, 12_800_000):
                self.file("t,v\n" + "".join(f"{at},{at}\n" for at in range(count)))
                told = shown_on_a_terminal(command_words)
                if "left" in told:
                    break
            self.assertRegex(told, r"\[#+\.+\] +\d+%  [\d,]+ rows, [\d,]+ a second, \d+:\d\d left")

    def test_no_rows(self):
        for text in ("", "\n\n", "t,v\n"):
            self.assertEqual(self.taken(text)[0], 2)
        self.assertFalse(os.path.exists(self.path))

    def test_a_dry_run_makes_nothing(self):
        status, told = self.taken(LOGGER, "--dry-run")
        self.assertEqual(status, 0)
        self.assertIn("temp_C: 3 taken", told)
        self.assertEqual(os.listdir(self.folder), ["a.csv"])

    def test_a_series_that_is_there_keeps_its_grid(self):
        with Store.make(self.path, program=PROGRAM) as store:
            store.create("v", 1000, 60, 1)
        self.assertEqual(self.taken("t,v\n1060,1.25\n1125,2\n")[0], 0)
        self.assertEqual(self.stored("v"), [(1060, 12), (1120, 20)])
        self.assertEqual(self.taken("t,v\n1060,1.25\n", "--scale", "2")[0], 2)

    def test_a_full_store(self):
        text = "t,v\n" + "".join(f"{at},{at}\n" for at in range(60_000))
        status, told = self.taken(text, "--size", "1M")
        self.assertEqual(status, 1)
        self.assertIn("Full", told)

    def is_released(self):
        """Whether no run holds the store any more, as one whose parent was killed, until it has read its input's end."""
        with contextlib.suppress(Exception):
            return bool(self.series())

    def test_interrupted_and_run_again_it_ends_as_if_it_had_run_once(self):
        text = "t,v,w\n" + "".join(f"{1793491200 + at},{at / 4},{-at}\n" for at in range(120_000))
        once, again = self.path, os.path.join(self.folder, "b.store")
        self.assertEqual(self.taken(text)[0], 0)
        words = lambda file: [sys.executable, "-m", "zurtkvani_client", "import", file, "--store", again, "--program", PROGRAM]
        how = {"cwd": os.path.join(ROOT, "clients/python"), "stdout": subprocess.DEVNULL, "stderr": subprocess.DEVNULL}
        # Who was started in a shell's background has Control-C ignored, and so have its children.
        how["preexec_fn"] = lambda: signal.signal(signal.SIGINT, signal.SIG_DFL)
        for end in (signal.SIGINT, signal.SIGTERM, signal.SIGKILL):
            child = subprocess.Popen(words("-"), stdin=subprocess.PIPE, **how)
            # All but what a pipe holds was read then, and the child waits for more.
            child.stdin.write(text[: len(text) // 2].encode())
            child.stdin.flush()
            self.assertTrue(os.path.exists(again))
            child.send_signal(end)
            self.assertNotEqual(child.wait(SECONDS), 0)
            child.stdin.close()
            self.path = again
            self.assertTrue(until(self.is_released))
        subprocess.run(words(os.path.join(self.folder, "a.csv")), check=True, **how)
        for name in "vw":
            self.path = once
            wanted = self.stored(name)
            self.path = again
            self.assertEqual(self.stored(name), wanted)
        self.assertEqual(len(wanted), 120_000)

    @unittest.skipUnless(shutil.which("sqlite3"), "sqlite3 isn't installed")
    def test_what_sqlite_exports(self):
        rows = "('2026-11-01 00:00:00', 1.5, null), ('2026-11-01 00:01:00', 2.25, 7)"
        lines = f"create table a(at text, level real, flow real);\ninsert into a values {rows};\nselect * from a;\n"
        done = subprocess.run(["sqlite3", "-csv", "-header"], input=lines, stdout=subprocess.PIPE, check=True, text=True)
        exported = done.stdout
        self.assertEqual(self.taken(exported)[0], 0)
        self.assertEqual(self.stored("level"), [(START, 150), (START + 60, 225)])
        self.assertEqual(self.stored("flow"), [(START + 60, 70)])


def shown_on_a_terminal(words):
    """What a module of the package tells where standard error is a terminal."""
    ours, theirs = pty.openpty()
    how = {"cwd": os.path.join(ROOT, "clients/python"), "stdout": subprocess.DEVNULL, "stderr": theirs}
    child = subprocess.Popen([sys.executable, "-m", *words], **how)
    os.close(theirs)
    told = b""
    # Behind the last of whoever has a terminal open a read of its other end fails.
    with contextlib.suppress(OSError), open(ours, "rb", buffering=0) as terminal:
        while part := terminal.read(4096):
            told += part
    child.wait()
    return told.decode()


if __name__ == "__main__":
    unittest.main()
