"""The seconds that a filtered view of a long series takes and the blocks that it reads, by how much of the series its filter decides. See bench/run."""
import random

from measuring import HEIGHT, PROGRAM, WIDTH, build_store, counted_calls, least_processor, lines_of_series, measure_all

COUNT, VIEWS, ROUNDS, RARE = 1000000, 20, 5, 100000
STORE, BLOCKS = "filters.store", 16384
# Noise from 0 to 999, and one value in RARE far above it. Almost every two neighbours lie on both sides of 500.
NOISE, HIGH, MIDDLE = 1000, 10**6, 500
ROWS = (
    ("no filter", ""),
    ("one value in 100,000", f"v >= {HIGH}"),
    ("true everywhere", "v >= 0"),
    ("the middle half of the times", f"t >= {COUNT // 4} and t < {COUNT // 4 * 3}"),
    ("each slot decides: a full scan", f"v < {MIDDLE} or v >= {MIDDLE}"),
)


def values():
    chance = random.Random(1)
    return [HIGH + i if i % RARE == RARE // 2 else chance.randrange(NOISE) for i in range(COUNT)]


def view(text):
    return f"view 1 s {WIDTH} {HEIGHT} 0 {COUNT} auto" + (f" where {text}" if text else "")


def write_input(name, asked):
    # Each view is a session's first one, so that none is answered from what the client holds.
    with open(name, "w") as file:
        file.writelines(f"open 1\n{line}close 1\n" for line in asked)


def measure_filters():
    build_store(STORE, BLOCKS, lines_of_series(values()))
    serve = [PROGRAM, STORE, "serve"]
    write_input("without", VIEWS * [""])
    rows = [("without", serve, "without")]
    for number, (name, text) in enumerate(ROWS):
        write_input(f"filter{number}", VIEWS * [view(text) + "\n"])
        rows.append((name, serve, f"filter{number}"))
    least = least_processor(measure_all(rows, ROUNDS))
    whole = least[ROWS[-1][0]] - least["without"]
    print(f"processor seconds of a view of {COUNT} values, {WIDTH} by {HEIGHT} pixels, by its filter: the least of {ROUNDS} rounds of `serve` with")
    print(f"{VIEWS} such views less that without, over {VIEWS}; and as a part of the full scan's; and the blocks that one view reads, with the opening")
    print(f"{'filter':34}{'a view s':>12}{'of the scan':>12}{'blocks':>8}")
    for name, text in ROWS:
        seconds = least[name] - least["without"]
        write_input("once", [view(text) + "\n"])
        blocks = counted_calls(serve, "once", ["pread64"]) or ""
        print(f"{name:34}{seconds / VIEWS:12.5f}{seconds / whole:12.3f}{blocks:>8}")
