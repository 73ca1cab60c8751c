"""What a store costs: its durable edits beside those of sqlite, and views of long series. See bench/run."""
import os
import random
import shutil
import sqlite3
import subprocess
import sys

from measuring import HEIGHT, LINE, PROGRAM, WIDTH, build_store, counted_calls, least_processor, least_seconds, lines_of_series, measure, walk

SYNCS = ("fsync", "fdatasync", "msync", "sync_file_range")
READS = ("pread64",)
EDITS, EDIT_ROUNDS = {1: 640, LINE: 192}, 3  # how many edits of so many values
BURST = 64  # edits that stand ready
DONE = 13  # bytes of the frame that answers an edit
BLOCKS = 16384
SERIES = {10**5: 2048, 10**6: 16384, 10**7: 131072}  # slots, and the blocks of a store that has room for them
SPARSE, FEW_BLOCKS = (2**28, 2**35 - 1), 128  # slots of series of three values, and the blocks of their stores
CATALOG_PAGES = 17  # page 0 and the catalog
VIEWS, SPARSE_VIEWS, ROUNDS = 20, 5000, 5


def lines_of(given):
    with open(given) as lines:
        return list(lines)


def edits_by_sqlite(path, given, at_once):
    """Does the edits of a file of request lines in a database with a full sync, so many in one transaction."""
    database = sqlite3.connect(path, isolation_level=None)
    database.execute("pragma journal_mode = wal")
    database.execute("pragma synchronous = full")
    database.execute("create table points (series integer, slot integer, value integer, primary key (series, slot)) without rowid")
    slots, lines = 0, lines_of(given)
    for begin in range(0, len(lines), at_once):
        database.execute("begin")
        for line in lines[begin : begin + at_once]:
            values = [(0, slot, int(word)) for slot, word in enumerate(line.split()[2:], slots)]
            slots += len(values)
            database.executemany("insert into points values (?, ?, ?)", values)
        database.execute("commit")
    database.close()


def edits_by_serve(path, given, at_once):
    """Gives so many of the edits of a file to `serve`, waits for their answers, and goes on with the next ones."""
    lines = lines_of(given)
    with subprocess.Popen([PROGRAM, path, "serve"], stdin=subprocess.PIPE, stdout=subprocess.PIPE) as program:
        for begin in range(0, len(lines), at_once):
            ready = lines[begin : begin + at_once]
            program.stdin.write("".join(ready).encode())
            program.stdin.flush()
            if len(program.stdout.read(DONE * len(ready))) < DONE * len(ready):
                sys.exit("an edit isn't answered")


def write_edits(name, count, values):
    draw = random.Random(1)
    with open(name, "w") as file:
        for _ in range(count):
            file.write(f"append s {' '.join(str(draw.randrange(-(10**6), 10**6)) for _ in range(values))}\n")


def measure_edits(values, count, at_once):
    """The runs and the syncs of each program, by its name, on new files each time. The programs take turns."""
    given = f"edits{values}"
    write_edits(given, count, values)
    build_store("empty.store", BLOCKS, ["create s 0 1 0"])
    by = [sys.executable, os.path.realpath(__file__)]
    programs = {
        "serve": [*by, "serve", "edits.store", given, str(at_once)],
        "sqlite": [*by, "sqlite", "edits.sqlite", given, str(at_once)],
    }

    def clear():
        for name in ("edits.sqlite", "edits.sqlite-wal", "edits.sqlite-shm"):
            if os.path.exists(name):
                os.remove(name)
        shutil.copy("empty.store", "edits.store")
        os.sync()

    runs, syncs = {name: [] for name in programs}, {}
    for _ in range(EDIT_ROUNDS):
        for name, words in programs.items():
            clear()
            runs[name].append(measure(words, given))
    for name, words in programs.items():
        clear()
        syncs[name] = counted_calls(words, given, SYNCS)
    return runs, syncs


def shown(count, of):
    return "-" if count is None else f"{count / of:.2f}"


def print_edits():
    print(f"durable edits of one series, the least of {EDIT_ROUNDS} rounds: serve, asked from Python, and sqlite {sqlite3.sqlite_version} with write-ahead log")
    print("and full sync, from Python. So many edits are given at once, in sqlite in one transaction, and the next once these are answered")
    print(f"{'program':10}{'values an edit':>16}{'at once':>9}{'edits':>8}{'edits a second':>16}{'syncs an edit':>15}{'time, over sqlite':>19}")
    for values, count in EDITS.items():
        for at_once in (1, BURST):
            runs, syncs = measure_edits(values, count, at_once)
            least = least_seconds(runs)
            for name in runs:
                print(
                    f"{name:10}{values:16}{at_once:9}{count:8}{count / least[name]:16.0f}{shown(syncs[name], count):>15}"
                    f"{least[name] / least['sqlite']:19.2f}"
                )


def measure_view(slots, store, views=VIEWS):
    """Processor seconds of a first view, the blocks that so many of them read, and the peak of memory of a run with them, over a store with a series of so many slots."""
    serve = [PROGRAM, store, "serve"]
    asked = {"without": "", "with": f"view 1 s {WIDTH} {HEIGHT} 0 {slots} auto\n"}
    runs, read = {}, {}
    for kind, view in asked.items():
        with open(kind, "w") as file:
            file.write(views * f"open 1\n{view}close 1\n")
        read[kind] = counted_calls(serve, kind, READS)
    for _ in range(ROUNDS):
        for kind in asked:
            runs.setdefault(kind, []).append(measure(serve, kind))
    least = least_processor(runs)
    reads = None if read["with"] is None else read["with"] - read["without"]
    return (least["with"] - least["without"]) / views, reads, max(run[1] for run in runs["with"])


def print_views():
    print(f"a first view of {WIDTH} by {HEIGHT} pixels of a whole series, a random walk, by `serve`: the least of {ROUNDS} rounds with {VIEWS} of")
    print(f"them less that without, over {VIEWS}")
    print(f"{'slots':>10}{'a view s':>12}{'blocks read':>13}{'peak MiB':>10}{'time, over that of the shortest':>33}")
    base = None
    for slots, blocks in SERIES.items():
        store = f"series{slots}.store"
        build_store(store, blocks, lines_of_series(list(walk(slots))))
        seconds, reads, peak = measure_view(slots, store)
        base = base or seconds
        print(f"{slots:10}{seconds:12.4f}{shown(reads, VIEWS):>13}{peak:10.1f}{seconds / base:33.2f}")
        os.remove(store)


def lines_of_sparse_series(slots):
    """The request lines that make a series of three values: in its first slot, in its middle, and in its last slot."""
    yield "create s 0 1 0"
    for value, slot in enumerate((0, slots // 2, slots - 1)):
        yield f"set s {slot} {value}"


def pages_in(store):
    """The pages in use, as `check` tells them."""
    told = subprocess.run([PROGRAM, store, "check"], stdin=subprocess.DEVNULL, stdout=subprocess.PIPE, check=True).stdout
    return int(told.split()[5])


def print_sparse():
    print(f"the same of series with three values, in the first slot, the middle and the last, with {SPARSE_VIEWS} views: the pages of the tree, and the blocks")
    print("that all these views read")
    print(f"{'slots':>12}{'pages':>7}{'a view s':>12}{'blocks read':>13}{'time, over that of the shortest':>33}")
    base = None
    for slots in SPARSE:
        store = f"sparse{slots}.store"
        build_store(store, FEW_BLOCKS, lines_of_sparse_series(slots))
        seconds, reads, _ = measure_view(slots, store, SPARSE_VIEWS)
        base = base or seconds
        print(f"{slots:12}{pages_in(store) - CATALOG_PAGES:7}{seconds:12.6f}{shown(reads, 1):>13}{seconds / base:33.2f}")


def measure_store():
    print_edits()
    print_views()
    print_sparse()


if __name__ == "__main__":
    by, path, given, at_once = sys.argv[1:]
    {"serve": edits_by_serve, "sqlite": edits_by_sqlite}[by](path, given, int(at_once))
