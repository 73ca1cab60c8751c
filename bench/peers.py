"""What a view takes beside those who scan or query all values, and the program's own instructions for it. See bench/run."""
import os
import re
import shutil
import sqlite3
import subprocess
import sys
import time

from live import CACHE, FOLLOWERS, MORE
from measuring import HEIGHT, PROGRAM, WIDTH, build_store, counted_calls, least_processor, lines_of_series, measure, walk

STORE = "peers.store"
SERIES = {10**6: 16384, 10**7: 131072}  # slots, and the blocks of a store that has room for them
VIEWS, ROUNDS, ASKS = 20, 5, 3
SERVE, SQLITE, NUMPY = "serve", "sqlite, an M4 query", "numpy, a scan of a raw file"
PYTHON = "/usr/bin/python3"  # Debian's, for which its package python3-numpy is
M4 = """
with columns as (
  select (time - :from) * :width / (:to - :from) as x, min(time) as first, max(time) as last, min(value) as least, max(value) as greatest
  from points where time >= :from and time < :to group by x)
select x, (select value from points where time = first), least, greatest, (select value from points where time = last) from columns
"""
SCAN = """
import sys, time, numpy
path, width, begin, end, asks = sys.argv[1], *map(int, sys.argv[2:])
for _ in range(asks):
    start = time.process_time()
    values = numpy.fromfile(path, dtype=numpy.int64, count=end - begin, offset=8 * begin)
    edges = numpy.arange(width) * (end - begin) // width
    rows = values[edges], numpy.minimum.reduceat(values, edges), numpy.maximum.reduceat(values, edges), values[numpy.append(edges[1:], end - begin) - 1]
    print(time.process_time() - start)
"""


def view(begin, end):
    return f"view 1 s {WIDTH} {HEIGHT} {begin} {end} auto\n"


def write(name, text):
    with open(name, "w") as file:
        file.write(text)


def seconds_by_serve(begin, end):
    """Seconds of the processor of a first view: runs with VIEWS sessions of one, less runs of as many without."""
    runs = {}
    for kind, asked in {"without": "", "with": view(begin, end)}.items():
        write(kind, VIEWS * f"open 1\n{asked}close 1\n")
    for _ in range(ROUNDS):
        for kind in ("without", "with"):
            runs.setdefault(kind, []).append(measure([PROGRAM, STORE, "serve"], kind))
    least = least_processor(runs)
    return (least["with"] - least["without"]) / VIEWS


def seconds_by_sqlite(begin, end):
    database = sqlite3.connect("peers.sqlite")
    taken = []
    for _ in range(ASKS):
        start = time.process_time()
        database.execute(M4, {"from": begin, "to": end, "width": WIDTH}).fetchall()
        taken.append(time.process_time() - start)
    database.close()
    return min(taken)


def seconds_by_numpy(begin, end):
    words = [PYTHON, "-c", SCAN, "peers.raw", str(WIDTH), str(begin), str(end), str(10 * ASKS)]
    told = subprocess.run(words, stdout=subprocess.PIPE, stderr=subprocess.DEVNULL)
    return min(map(float, told.stdout.split())) if told.returncode == 0 else None


def make_peers(values):
    if os.path.exists("peers.sqlite"):
        os.remove("peers.sqlite")
    database = sqlite3.connect("peers.sqlite")
    database.execute("create table points (time integer primary key, value integer)")
    database.executemany("insert into points values (?, ?)", enumerate(values))
    database.commit()
    database.close()
    with open("peers.raw", "wb") as file:
        for value in values:
            file.write(value.to_bytes(8, sys.byteorder, signed=True))


def instructions(command, given):
    """How many instructions a run of a command on these bytes takes. The store is as it was behind it."""
    shutil.copy(STORE, "kept.store")
    words = ["valgrind", "--tool=callgrind", "--callgrind-out-file=/dev/null", PROGRAM, STORE, command]
    told = subprocess.run(words, input=given, stdout=subprocess.DEVNULL, stderr=subprocess.PIPE, check=True)
    os.replace("kept.store", STORE)
    return int(re.search(rb"Collected : (\d+)", told.stderr).group(1))


def blocks_read(lines):
    """How many blocks `serve` reads on these lines. The store is as it was behind it."""
    write("steps", lines)
    shutil.copy(STORE, "kept.store")
    count = counted_calls([PROGRAM, STORE, "serve"], "steps", ("pread64",))
    os.replace("kept.store", STORE)
    return count


def print_push(slots, followers):
    """What an append and its pushes to so many followers of a view of all slots, and of some that are still to come, take."""
    asked = "".join(f"open {at} {CACHE}\n{view(0, slots + MORE).replace('view 1', f'view {at}')}follow {at}\n" for at in range(1, followers + 1))
    before, behind = (instructions("live", (asked + edit).encode()) for edit in ("", "append s 0\n"))
    print(f"{f'an append and its pushes to {followers} by `live`':48}{(behind - before) / 10**6:10.1f}")


def print_instructions(slots):
    """What each line of a session adds, in millions of instructions and in blocks read."""
    if not shutil.which("valgrind") or not shutil.which("strace"):
        print("valgrind or strace isn't installed")
        return
    asked = view(0, slots)
    steps = [
        ("the opening alone", ""),
        ("a first view", "open 1\n" + asked),
        ("the same view again", asked),
        ("a correction in its middle", f"set s {slots // 2} {10**6}\n"),
        ("the view after it", asked),
        ("the same view by a second session", "open 2\n" + asked.replace("view 1", "view 2")),
        ("an append of one value", "append s 0\n"),
    ]
    print(f"what `serve` does over {slots} slots, by valgrind's callgrind, which other work on the machine doesn't change, and the blocks read")
    print(f"{'step':36}{'million instructions':>22}{'blocks read':>13}")
    frames = subprocess.run([PROGRAM, STORE, "serve"], input=f"open 1\n{asked}".encode(), stdout=subprocess.PIPE, check=True).stdout
    lines, before = "", (0, 0)
    for name, added in steps:
        lines += added
        counts, reads = instructions("serve", lines.encode()), blocks_read(lines)
        print(f"{name:36}{(counts - before[0]) / 10**6:22.1f}{reads - before[1]:13}")
        before = (counts, reads)
    print(f"{'`draw` of the frame of the first view':48}{instructions('draw', frames) / 10**6:10.1f}")
    for followers in FOLLOWERS if slots == min(SERIES) else ():
        print_push(slots, followers)


def measure_peers():
    for slots, blocks in SERIES.items():
        values = list(walk(slots))
        build_store(STORE, blocks, lines_of_series(values))
        make_peers(values)
        print(f"processor seconds of a view of {WIDTH} columns over {slots} slots, a random walk, in one run: the least of {ROUNDS} rounds of {VIEWS}, and of {ASKS} asks")
        print(f"{'program':30}{'the whole series':>18}{'a thousandth of it':>20}{'whole, over serve':>19}")
        middle = slots // 2
        rows = {}
        for name, ask in {SERVE: seconds_by_serve, SQLITE: seconds_by_sqlite, NUMPY: seconds_by_numpy}.items():
            rows[name] = ask(0, slots), ask(middle, middle + slots // 1000)
        for name, (whole, part) in rows.items():
            if whole is None or part is None:
                print(f"{name:30}  {PYTHON} has no numpy")
            else:
                print(f"{name:30}{whole:18.4f}{part:20.5f}{whole / rows[SERVE][0]:19.1f}")
        print_instructions(slots)
