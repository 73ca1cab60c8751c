"""How long of the processor clients take from a view's frame to its picture: the proved one as a library and as a module, and those by hand. See bench/run."""
import io
import os
import shutil
import statistics
import subprocess
import sys
import time

from measuring import PROGRAM, ROOT, build_store, lines_of_series, measure, walk
from views import BLOCKS, COUNT, output_of, write_lines

sys.path.insert(1, f"{ROOT}/clients/python")
from zurtkvani_client.client import ByHand, Proved, load

WIDTH, HEIGHT, VIEWS, ROUNDS = 1000, 370, 10, 5
LIBRARY = os.environ.get("CHART_LIBRARY", f"{ROOT}/dist/libchart_client.so")
MODULE = os.environ.get("CHART_MODULE", f"{ROOT}/dist/chart_client.wasm")


def python_times(client_over):
    """Of each view the milliseconds of the processor from the bytes of its frame to its picture, and those of them that go into the values of its columns."""
    with open("frames", "rb") as file:
        client = client_over(io.BytesIO(file.read()))
    for _ in range(VIEWS):
        client.accept()
        start = time.process_time()
        picture = client.accept()[1]
        drawn = time.process_time()
        if isinstance(client, Proved):
            client.values(picture.w)
        yield 1000 * (drawn - start), 1000 * (time.process_time() - drawn)
        client.accept()


def node_times(name):
    """The same under node, with the colour of each pixel."""
    done = subprocess.run(["node", f"{ROOT}/bench/clients.mjs", name, MODULE, "frames"], stdout=subprocess.PIPE, check=True)
    for line in done.stdout.splitlines():
        yield tuple(map(float, line.split()))


def ways():
    """The rows of the table: a name, and what gives the times of a round or what is missing."""
    yield "the library, in Python", (lambda: python_times(lambda frames: Proved(frames, load(LIBRARY)))) if os.path.exists(LIBRARY) else f"{LIBRARY} isn't there"
    yield "the client in Python", lambda: python_times(ByHand)
    has_node = shutil.which("node")
    yield "the module, to colours", (lambda: node_times("module")) if has_node and os.path.exists(MODULE) else f"there is no node, or no {MODULE}"
    yield "the client in JavaScript, to colours", (lambda: node_times("client")) if has_node else "there is no node"


def measure_clients():
    build_store("clients.store", BLOCKS, lines_of_series(list(walk(COUNT))))
    write_lines("lines", VIEWS * ["open 1", f"view 1 s {WIDTH} {HEIGHT} 0 {COUNT} auto", "close 1"])
    with open("frames", "wb") as frames:
        frames.write(output_of([PROGRAM, "clients.store", "serve"], "lines"))
    times = {name: [] for name, _ in ways()}
    drawn = []
    for _ in range(ROUNDS):
        drawn.append(1000 * measure([PROGRAM, "-", "draw"], "frames")[3] / VIEWS)
        for name, way in ways():
            if callable(way):
                times[name] += way()
    print(f"processor milliseconds from a frame to its picture: first views of {COUNT} slots of a random walk, {WIDTH} by {HEIGHT} pixels, {VIEWS} in each of {ROUNDS} rounds")
    print(f"{'client':38}{'median ms':>10}{'least ms':>10}{'of it columns':>15}")
    print(f"{'`draw`, with its start':38}{statistics.median(drawn):10.2f}{min(drawn):10.2f}")
    for name, way in ways():
        if callable(way):
            whole, columns = zip(*times[name])
            print(f"{name:38}{statistics.median(whole):10.2f}{min(whole):10.2f}{statistics.median(columns):15.2f}")
        else:
            print(f"{name:38}  {way}")
