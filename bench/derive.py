"""What it costs to draw a sum of two series: `derive` beside two programs that read both whole. See bench/run."""
import array
import math
import os
import random
import sqlite3
import subprocess
import sys

from measuring import HEIGHT, PROGRAM, ROOT, WIDTH, build_store, counted_calls, least_processor, lines_of_series, measure_all, walk

COUNT, BLOCKS = 10**6, 32768
READS = ("pread64",)
ROUNDS = 3
COLUMNS = """select p.slot * ? / ?, min(p.value + q.value), max(p.value + q.value) from points p join points q on q.series = 1 and q.slot = p.slot
where p.series = 0 group by 1"""


def other_walk():
    """A random walk of other steps than measuring's."""
    draw, value = random.Random(1), 0
    for _ in range(COUNT):
        value += draw.randrange(-100, 101)
        yield value


def sine():
    return [round(10**6 * math.sin(2 * math.pi * 20 * slot / COUNT)) for slot in range(COUNT)]


def pairs():
    """The series that are added: a name, the values of each, and the widths of the pictures."""
    yield "a walk and a walk", list(walk(COUNT)), list(other_walk()), (10, 100, WIDTH)
    yield "a walk and a constant", list(walk(COUNT)), [1000] * COUNT, (10, 100, WIDTH)
    yield "a sine and its opposite", sine(), [-value for value in sine()], (WIDTH,)


def make_database(path, *series):
    database = sqlite3.connect(path, isolation_level=None)
    database.execute("create table points (series integer, slot integer, value integer, primary key (series, slot)) without rowid")
    database.execute("begin")
    for number, values in enumerate(series):
        database.executemany(f"insert into points values ({number}, ?, ?)", enumerate(values))
    database.execute("commit")
    database.close()


def sums_by_sqlite(path):
    """The least and the greatest sum of each column, by a join of both series."""
    for row in sqlite3.connect(path).execute(COLUMNS, (WIDTH, COUNT)):
        print(*row)


def measure_derive():
    subprocess.run(["gcc", "-O2", "-o", "sums", f"{ROOT}/bench/sums.c"], check=True)
    by = [sys.executable, os.path.realpath(__file__)]
    derive = [PROGRAM, "pair.store", "derive"]
    print(f"the sum of two series of {COUNT} slots, {HEIGHT} pixels high, the least of {ROUNDS} rounds: `derive` over a store whose trees have {2 * -(-COUNT // 128)} lowest pages; a C program")
    print(f"over two files of 64-bit numbers, and sqlite {sqlite3.sqlite_version} from Python, which tell the least and the greatest sum of each of {WIDTH} columns and draw nothing")
    print(f"{'series':26}{'program':26}{'processor s':>13}{'peak MiB':>10}{'blocks read':>13}")
    for name, first, second, widths in pairs():
        build_store("pair.store", BLOCKS, [*lines_of_series(first, "s"), *lines_of_series(second, "t")])
        make_database("pair.sqlite", first, second)
        for path, values in (("first", first), ("second", second)):
            with open(path, "wb") as file:
                array.array("q", values).tofile(file)
        rows = []
        for width in widths:
            with open(f"line{width}", "w") as file:
                file.write(f"s t 1 1 {width} {HEIGHT} 0 {COUNT} auto\n")
            rows.append((f"derive, {width} columns", derive, f"line{width}"))
        given = rows[-1][2]
        rows += [("C", [os.path.abspath("sums"), str(WIDTH), "first", "second"], given), ("sqlite", [*by, "pair.sqlite"], given)]
        runs = measure_all(rows, ROUNDS)
        least = least_processor(runs)
        for program, words, line in rows:
            reads = counted_calls(words, line, READS) if words is derive else ""
            if words is derive and not runs[program][0][2].startswith(b"P4\n"):
                sys.exit("bench: a line isn't answered by a picture")
            print(f"{name:26}{program:26}{least[program]:13.3f}{max(run[1] for run in runs[program]):10.1f}{'-' if reads is None else reads:>13}")
        for path in ("pair.store", "pair.sqlite"):
            os.remove(path)


if __name__ == "__main__":
    sums_by_sqlite(sys.argv[1])
