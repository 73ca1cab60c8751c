"""What the package in clients/python costs: bulk appends, other commands, a view in a notebook, and files of readings. See bench/run."""
import importlib.util
import io
import os
import random
import shutil
import sqlite3
import statistics
import subprocess
import sys
import time

from measuring import HEIGHT, PROGRAM, ROOT, WIDTH, walk

sys.path.insert(0, os.path.join(ROOT, "clients/python"))

from zurtkvani_client import Store, client  # noqa: E402

ROWS, FILE_ROWS, ROUNDS, SYNCS, PICTURES = 10**6, 200_000, 3, 200, 20
START, SIZE, STORE = 1793491200, 2**28, "package.store"  # 2026-11-01T00:00:00Z


def sync_milliseconds():
    """What the disk takes to bring a block to it: the middle of some."""
    with open("synced", "wb", buffering=0) as file:
        taken = [milliseconds_of(lambda: (os.pwrite(file.fileno(), os.urandom(4096), 0), os.fdatasync(file.fileno()))) for _ in range(SYNCS)]
    return statistics.median(taken)


def milliseconds_of(work, clock=time.perf_counter):
    begin = clock()
    work()
    return 1000 * (clock() - begin)


def tell(what, taken):
    print(f"{what:62}{min(taken):10.1f}{statistics.median(taken):10.1f}")


def fresh_store():
    if os.path.exists(STORE):
        os.remove(STORE)
    return Store.make(STORE, SIZE, program=PROGRAM)


def append_by_sqlite(values):
    for name in ("package.sqlite", "package.sqlite-wal", "package.sqlite-shm"):
        if os.path.exists(name):
            os.remove(name)
    database = sqlite3.connect("package.sqlite", isolation_level=None)
    database.execute("pragma journal_mode = wal")
    database.execute("pragma synchronous = full")
    database.execute("create table points (time integer primary key, value real)")
    database.execute("begin")
    database.executemany("insert into points values (?, ?)", enumerate(values, START))
    database.execute("commit")
    database.close()


def measure_appends():
    values = [value / 100 for value in walk(ROWS)]
    kinds = {"a list": values}
    if importlib.util.find_spec("numpy"):
        import numpy

        kinds["an array of numpy"] = numpy.array(values)
    for kind, numbers in kinds.items():
        taken = []
        for _ in range(ROUNDS):
            with fresh_store() as store:
                store.create("s", START, 1, 2)
                taken.append(milliseconds_of(lambda: store.append("s", numbers)))
        tell(f"append of {kind} of {ROWS:,} floats", taken)
    tell("the list by sqlite, one executemany, WAL, full sync", [milliseconds_of(lambda: append_by_sqlite(values)) for _ in range(ROUNDS)])


def measure_commands():
    """Over the store that the appends left."""
    with Store(STORE, program=PROGRAM) as store:
        store.create("t", START, 1, 2)
        store.append("t", [value / 100 for value in walk(ROWS)][::-1])
        session = store.session()
        session.view("s")
        taken = {"values of a series": [], "sum of two series": [], "a view behind another command": [], "the same view again": []}
        for _ in range(ROUNDS):
            taken["values of a series"].append(milliseconds_of(lambda: sum(1 for _ in store.values("s"))))
            taken["sum of two series"].append(milliseconds_of(lambda: store.sum("s", "t", 1, -1)))
        for _ in range(PICTURES):
            store.shown("list").read()
            taken["a view behind another command"].append(milliseconds_of(lambda: session.pan(0)))
            taken["the same view again"].append(milliseconds_of(lambda: session.pan(0)))
    for what, times in taken.items():
        tell(what, times)


def measure_notebook():
    """From a frame to what a notebook shows, over the store that the appends left."""
    lines = f"open 1\nview 1 s {WIDTH} {HEIGHT} {START} {START + ROWS} auto\n".encode()
    sent = subprocess.run([PROGRAM, STORE, "serve"], input=lines, stdout=subprocess.PIPE, check=True).stdout
    with Store(STORE, program=PROGRAM) as store:
        whole = store.draw("s", WIDTH, HEIGHT)
    clients = {"the client in Python": client.ByHand}
    if client.is_proved:
        clients["the proved client"] = client.Proved
    for name, over in clients.items():
        drawn, shown = [], []
        for _ in range(PICTURES):
            reader, pictures = over(io.BytesIO(sent)), [whole]
            reader.accept()
            drawn.append(milliseconds_of(lambda: pictures.append(reader.accept()[1]), time.process_time))
            pictures[1].series, pictures[1].window, pictures[1].unit = whole.series, whole.window, whole.unit
            shown.append(milliseconds_of(lambda: (pictures[1]._repr_svg_(), pictures[1]._repr_png_()), time.process_time))
        tell(f"of the processor: from the frame to a picture, by {name}", drawn)
        tell("of the processor: from that to SVG and PNG for a notebook", shown)
    if importlib.util.find_spec("matplotlib"):
        tell("of the processor: the same series to a PNG, by matplotlib", matplotlib_times())


def matplotlib_times():
    import matplotlib
    import numpy

    matplotlib.use("agg")
    import matplotlib.pyplot

    times, values = numpy.arange(START, START + ROWS), numpy.array(list(walk(ROWS))) / 100

    def draw():
        figure, axes = matplotlib.pyplot.subplots(figsize=(WIDTH / 100, HEIGHT / 100), dpi=100)
        axes.plot(times, values)
        figure.savefig(io.BytesIO(), format="png")
        matplotlib.pyplot.close(figure)

    return [milliseconds_of(draw, time.process_time) for _ in range(PICTURES)]


def write_logger(path, date, values):
    """A file of rows: a date by a form of strftime, and the values that a row's second and reading give."""
    with open(path, "w") as file:
        file.writelines(f"{time.strftime(date, time.gmtime(START + second))}{values(second, value)}\n" for second, value in enumerate(walk(FILE_ROWS)))


def measure_run(what, words, folder):
    """Tells the seconds, the seconds of the processor, and the peak of memory of a run, and of what it ran."""
    timed = ["/usr/bin/time", "-f", "%e %U %S %M", "-o", os.path.abspath("peak"), *words]
    subprocess.run(timed, stdout=subprocess.DEVNULL, cwd=folder, check=True)
    with open("peak") as file:
        wall, user, system, peak = map(float, file.read().split())
    print(f"{what:62}{wall:10.1f}{user + system:10.1f}{peak / 1024:6.0f}")


def measure_files():
    source, package = random.Random(1), os.path.join(ROOT, "clients/python")
    print(f"{f'{FILE_ROWS:,} rows':62}{'s':>10}{'processor':>10}{'MiB':>6}")
    for columns in (3, 4):
        path, store = os.path.abspath("logger.csv"), os.path.abspath(f"import{columns}.store")
        write_logger(path, "%FT%T", lambda _, value: f".{source.randrange(400):03}Z" + "".join(f",{value / 100 + at}" for at in range(columns)))
        words = [sys.executable, "-m", "zurtkvani_client", "import", path, "--store", store, "--program", PROGRAM, "--series", ",".join("abcd"[:columns])]
        measure_run(f"import, a date and {columns} values, by --dry-run", [*words, "--dry-run"], package)
        measure_run(f"import, a date and {columns} values", words, package)
        if shutil.which("sqlite3"):
            make = f"pragma journal_mode = wal; pragma synchronous = full; create table rows (date text primary key{''.join(f', {name} real' for name in 'abcd'[:columns])});"
            measure_run("sqlite3 .import, the date as a text", ["sqlite3", f"import{columns}.sqlite", make, ".mode csv", f".import {path} rows"], os.getcwd())
    write_logger(path, "%FT%TZ", lambda _, value: f",{value / 100}")
    measure_run("readings", [sys.executable, "-m", "zurtkvani_client.readings", "--step", "1", "--scale", "2", path], package)


def measure_package():
    print(f"the package for Python, beside syncs of {sync_milliseconds():.2f} ms: the least and the middle of some rounds, in ms")
    measure_appends()
    measure_commands()
    measure_notebook()
    measure_files()
    print(f"syncs of {sync_milliseconds():.2f} ms behind it")
