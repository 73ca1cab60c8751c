"""What a burst of appends costs with sixteen followers: by `host`, by `live`, and by `serve` asked anew. See bench/run."""
import subprocess
import time

from live import BLOCKS, CACHE, COUNT, STORE, opened, view_of
from load import SYNCS
from measuring import PROGRAM, WIDTH, build_store, counted_calls, lines_of_series, walk

APPENDS, FOLLOWERS, TOGETHER = 1000, 16, 64  # TOGETHER: the most edits of a commit


def beginning(command):
    """The lines by which the followers begin."""
    for session in range(1, FOLLOWERS + 1):
        yield f"open {session} {CACHE}"
        yield view_of(session)
        if command != "serve":
            yield f"follow {session}"


def burst(command, values):
    """The appends; for `serve` each session's view behind as many of them as it does together."""
    for at in range(0, len(values), TOGETHER):
        yield from (f"append s {value}" for value in values[at : at + TOGETHER])
        if command == "serve":
            yield from map(view_of, range(1, FOLLOWERS + 1))


def fresh_store():
    subprocess.run(["cp", "--sparse=always", "full.store", STORE], check=True)


def syncs_of(command, lines):
    fresh_store()
    with open("given", "w") as given:
        given.writelines(f"{line}\n" for line in lines)
    return counted_calls([PROGRAM, STORE, command], "given", SYNCS)


def measured(command, lines):
    """The frames and the bytes of the answers and pushes, and the seconds until the last of them is there."""
    fresh_store()
    run = opened(command, FOLLOWERS)
    began = time.perf_counter()
    run.ask(lines)
    run.program.stdin.close()
    sent = run.program.stdout.read()
    seconds = time.perf_counter() - began
    if run.program.wait():
        raise SystemExit(f"bench: status {run.program.returncode}")
    frames = at = 0
    while at < len(sent):
        at += 4 + int.from_bytes(sent[at : at + 4], "big")
        frames += 1
    return frames, len(sent), seconds


def measure_host():
    print(f"{APPENDS} appends of one value that stand ready, to {COUNT} slots, and the views of {WIDTH} columns of {FOLLOWERS} sessions behind them")
    print(f"{'program':28}{'syncs':>8}{'frames':>9}{'bytes':>11}{'seconds':>10}{'appends a second':>18}")
    values = list(walk(COUNT + APPENDS))
    build_store("full.store", BLOCKS, lines_of_series(values[:COUNT]))
    for name, command in (("host, pushed behind groups", "host"), ("serve, asked behind groups", "serve"), ("live, pushed", "live")):
        lines, first = list(burst(command, values[COUNT:])), list(beginning(command))
        with_appends, without = syncs_of(command, first + lines), syncs_of(command, first)
        syncs = "-" if with_appends is None else with_appends - without
        frames, size, seconds = measured(command, lines)
        print(f"{name:28}{syncs:>8}{frames:9}{size:11}{seconds:10.2f}{APPENDS / seconds:18.0f}", flush=True)
