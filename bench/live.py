"""What a live view costs: from an append of one value to the frame that is pushed, beside asking for the view anew. See bench/run."""
import struct
import subprocess
import sys
import time

from measuring import HEIGHT, PROGRAM, WIDTH, build_store, lines_of_series, walk

COUNT, BLOCKS, ROUNDS = 10**6, 16384, 30
FOLLOWERS = (1, 16)
MORE = 1000  # slots of the window that are still to come
CACHE = 131072  # the largest: a view of WIDTH columns may need (3 * WIDTH + 1) * 35 coefficients
ROWS_HEAD, ROW = 31, 34  # bytes of a Rows frame: the fields before its rows, and a row
DONE, OPENED, VIEW, LIVE = 1, 3, 5, 7
STORE = "live.store"


class Run:
    """A run of the program that is asked line by line."""

    def __init__(self, command):
        self.program = subprocess.Popen([PROGRAM, STORE, command], stdin=subprocess.PIPE, stdout=subprocess.PIPE)

    def ask(self, lines):
        self.program.stdin.write("".join(f"{line}\n" for line in lines).encode())
        self.program.stdin.flush()

    def frames(self, kinds):
        """The sizes of the next frames, which have to be of these kinds."""
        sizes = []
        for kind in kinds:
            head = self.program.stdout.read(4)
            body = self.program.stdout.read(struct.unpack(">I", head)[0])
            if body[0] != kind:
                sys.exit(f"bench: a frame of kind {body[0]} in place of {kind}")
            sizes.append(4 + len(body))
        return sizes

    def processor(self):
        """The seconds of the processor that the run took so far."""
        with open(f"/proc/{self.program.pid}/schedstat") as file:
            return int(file.read().split()[0]) / 10**9

    def end(self):
        self.program.stdin.close()
        if self.program.wait():
            sys.exit(f"bench: status {self.program.returncode}")


def view_of(session):
    return f"view {session} s {WIDTH} {HEIGHT} 0 {COUNT + MORE} auto"


def opened(command, followers):
    """A run in which so many sessions have had the view, and follow it where that can be."""
    run = Run(command)
    for session in range(1, followers + 1):
        run.ask([f"open {session} {CACHE}", view_of(session)])
        run.frames([OPENED, VIEW])
        if command != "serve":
            run.ask([f"follow {session}"])
            run.frames([LIVE])
    return run


def rounds_of(command, followers, values):
    """Of each append: the bytes of all views behind it, the seconds until the first of them and the last is there, and those of the processor."""
    run = opened(command, followers)
    for value in values:
        began, before = time.perf_counter(), run.processor()
        run.ask([f"append s {value}"])
        run.frames([DONE])
        sizes, first = [], None
        for session in range(1, followers + 1):
            if command != "live":
                run.ask([view_of(session)])
            sizes += run.frames([VIEW])
            first = first or time.perf_counter() - began
        last = time.perf_counter() - began
        yield sum(sizes), first, last, run.processor() - before
    run.end()


def middle(numbers):
    return sorted(numbers)[len(numbers) // 2]


def measure_live():
    print(f"an append of one value to {COUNT} slots, and the views of {WIDTH} columns behind it: the middle of {ROUNDS} appends")
    print(f"{'program':22}{'sessions':>9}{'bytes a view':>14}{'first, ms':>11}{'all, ms':>9}{'processor, ms':>15}")
    values = list(walk(COUNT + ROUNDS))
    build_store("full.store", BLOCKS, lines_of_series(values[:COUNT]))
    for followers in FOLLOWERS:
        for name, command in (("live, pushed", "live"), ("serve, asked anew", "serve")):
            subprocess.run(["cp", "--sparse=always", "full.store", STORE], check=True)
            seen = list(rounds_of(command, followers, values[COUNT:]))
            size, first, last, processor = (middle([one[at] for one in seen]) for at in range(4))
            print(f"{name:22}{followers:9}{size // followers:14}{1000 * first:11.2f}{1000 * last:9.2f}{1000 * processor:15.2f}")
    print(f"{'four values a column':22}{'':9}{ROWS_HEAD + ROW * WIDTH:14}")
