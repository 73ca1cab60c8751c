"""What it costs to drop old slots: `retain` beside sqlite, at the same commits and in one. See bench/run."""
import os
import shutil
import sqlite3
import sys

from measuring import PROGRAM, build_store, counted_calls, least_processor, least_seconds, lines_of_series, measure, walk

SYNCS = ("fsync", "fdatasync", "msync", "sync_file_range")
SERIES = {10**5: 2048, 10**6: 16384}  # slots, and the blocks of a store that has room for them
RANGE = 4096  # slots of a clear
LEFT = 1000  # slots that aren't old
ROUNDS = 3


def make_database(path, slots):
    database = sqlite3.connect(path, isolation_level=None)
    database.execute("pragma journal_mode = wal")
    database.execute("pragma synchronous = full")
    database.execute("create table points (series integer, slot integer, value integer, primary key (series, slot)) without rowid")
    database.execute("begin")
    database.executemany("insert into points values (0, ?, ?)", enumerate(walk(slots)))
    database.execute("commit")
    database.execute("pragma wal_checkpoint(truncate)")
    database.close()


def deletes(path, old, at_once):
    """Deletes the old slots of a database with a full sync, so many in one transaction."""
    database = sqlite3.connect(path, isolation_level=None)
    database.execute("pragma synchronous = full")
    for begin in range(0, old, at_once):
        database.execute("delete from points where series = 0 and slot >= ? and slot < ?", (begin, min(begin + at_once, old)))
    database.close()


def measure_retain():
    print(f"all slots of a series but the last {LEFT}, dropped: the least of {ROUNDS} rounds. `retain`, and sqlite {sqlite3.sqlite_version} with write-ahead log and")
    print(f"full sync, from Python: {RANGE} slots in one delete, or all")
    print(f"{'program':14}{'old slots':>11}{'commits':>9}{'syncs':>7}{'seconds':>9}{'processor s':>13}{'peak MiB':>10}")
    by = [sys.executable, os.path.realpath(__file__)]
    for slots, blocks in SERIES.items():
        old = slots - LEFT
        build_store("full.store", blocks, lines_of_series(list(walk(slots))))
        make_database("full.sqlite", slots)
        with open("rules", "w") as file:
            file.write(f"before s {old}\n")
        clears = -(-old // RANGE)
        programs = {
            "retain": ([PROGRAM, "old.store", "retain"], clears),
            "sqlite": ([*by, "old.sqlite", str(old), str(RANGE)], clears),
            "sqlite, all": ([*by, "old.sqlite", str(old), str(old)], 1),
        }

        def renew():
            for name in ("old.sqlite-wal", "old.sqlite-shm"):
                if os.path.exists(name):
                    os.remove(name)
            shutil.copy("full.store", "old.store")
            shutil.copy("full.sqlite", "old.sqlite")
            os.sync()

        runs, syncs = {name: [] for name in programs}, {}
        for _ in range(ROUNDS):
            for name, (words, _) in programs.items():
                renew()
                runs[name].append(measure(words, "rules"))
        for name, (words, _) in programs.items():
            renew()
            syncs[name] = counted_calls(words, "rules", SYNCS)
        if any(not run[2].startswith(b"swept %d " % clears) for run in runs["retain"]):
            sys.exit("bench: a rule isn't answered by its clears")
        least, processor = least_seconds(runs), least_processor(runs)
        for name, (_, commits) in programs.items():
            peak = max(run[1] for run in runs[name])
            print(f"{name:14}{old:11}{commits:9}{'-' if syncs[name] is None else syncs[name]:>7}{least[name]:9.3f}{processor[name]:13.3f}{peak:10.1f}")
        for name in ("full.store", "old.store", "full.sqlite", "old.sqlite"):
            os.remove(name)


if __name__ == "__main__":
    path, old, at_once = sys.argv[1:]
    deletes(path, int(old), int(at_once))
