"""The gateway beside influxd and prometheus: points a second that are written durably, and range queries over a long series. See bench/run."""
import contextlib
import functools
import gc
import http.client
import json
import os
import random
import shutil
import statistics
import subprocess
import sys
import threading
import time
import urllib.parse

from measuring import ROOT, build_store, lines_of_series, walk

sys.path.insert(0, os.path.join(ROOT, "clients/python/tests"))

T = 1_700_000_000
BATCH, POINTS, ROUNDS = 5000, 100_000, 2
SMALL, SMALL_POINTS = 100, 4_000
SERIES = '[[series]]\nstep = "1s"\nscale = 3\n'
INFLUXD = """reporting-disabled = true
bind-address = "127.0.0.1:{other}"
[meta]
  dir = "{folder}/meta"
[data]
  dir = "{folder}/data"
  wal-dir = "{folder}/wal"
  wal-fsync-delay = "0s"
  query-log-enabled = false
[http]
  bind-address = "127.0.0.1:{own}"
  log-enabled = false
  max-row-limit = 0
"""
NUMBERS = [f"{value / 1000:.3f}" for value in walk(100_000)]


def of_one_series(client, at):
    """A batch of points of one series, each a second behind the one before."""
    first = T + at * BATCH
    return "".join(f"m,host=h{client} v={NUMBERS[(at * BATCH + n) % len(NUMBERS)]} {first + n}\n" for n in range(BATCH))


def of_a_hundred(client, at):
    """A batch of points of a hundred series, time by time."""
    first, times = T + at * (BATCH // 100), range(BATCH // 100)
    return "".join(f"n,host=h{client},part=p{n} v={NUMBERS[(first + n * time_of) % len(NUMBERS)]} {first + time_of}\n" for time_of in times for n in range(100))


def of_a_point_each(client, at):
    """A small batch, of a point of each of a hundred series."""
    return "".join(f"o,host=h{client},part=p{n} v={NUMBERS[(at * 7 + n) % len(NUMBERS)]} {T + at}\n" for n in range(SMALL))


QUERIED = 10**7  # slots of the series whose ranges are asked for, a second each
BLOCKS = 131072  # of a store that has room for it
STEPS, ASKS, SECONDS = 1000, 100, 20  # of a range; queries of a kind; and the seconds from which a server is asked no further one of it
KINDS = {
    "5,000 points of one series": (of_one_series, BATCH, POINTS), "5,000 points of 100 series": (of_a_hundred, BATCH, POINTS),
    "a point each of 100 series": (of_a_point_each, SMALL, SMALL_POINTS),
}


class Failed(Exception):
    """What a server answered that it shouldn't have."""


def asked(port, method, path, body=None, connection=None):
    """The bytes that a server answers."""
    one = connection or http.client.HTTPConnection("127.0.0.1", port, timeout=120)
    one.request(method, path, body)
    answer = one.getresponse()
    text = answer.read()
    if answer.status // 100 != 2:
        raise Failed(f"{path[:60]}: {answer.status} {text[:300]}")
    return text


def post_all(port, bodies, failures):
    """Posts bodies, each once the one before was answered, by one connection."""
    connection = http.client.HTTPConnection("127.0.0.1", port, timeout=120)
    try:
        for body in bodies:
            asked(port, "POST", "/write?db=bench&precision=s", body, connection)
    except (OSError, http.client.HTTPException, Failed) as why:
        failures.append(why)
    finally:
        connection.close()


def written(port, kind, clients, begin):
    """Has some clients write at once. Gives how many points that were, the seconds, and from which batch the next ones go on."""
    body_of, size, points = KINDS[kind]
    each = points // size // clients
    bodies = [[body_of(client, begin + at).encode() for at in range(each)] for client in range(clients)]
    failures = []
    threads = [threading.Thread(target=post_all, args=(port, bodies[client], failures)) for client in range(clients)]
    begun = time.perf_counter()
    for one in threads:
        one.start()
    for one in threads:
        one.join()
    if failures:
        raise failures[0]
    return each * size * clients, time.perf_counter() - begun, begin + each


@contextlib.contextmanager
def process(log, *words):
    """A server, ended at the end."""
    with open(log, "w") as file, subprocess.Popen(words, stdin=subprocess.DEVNULL, stdout=file, stderr=file) as one:
        try:
            yield one
        finally:
            one.terminate()


def wait_for(port, path):
    for _ in range(300):
        try:
            return asked(port, "GET", path)
        except (OSError, Failed):
            time.sleep(0.1)
    raise Failed(f"nothing answers on {port}")


@contextlib.contextmanager
def influxd(folder, free_port):
    own = free_port()
    with open("influxd.conf", "w") as file:
        file.write(INFLUXD.format(folder=folder, own=own, other=free_port()))
    with process("influxd.log", shutil.which("influxd"), "-config", "influxd.conf") as one:
        wait_for(own, "/ping")
        asked(own, "POST", "/query?" + urllib.parse.urlencode({"q": "CREATE DATABASE bench"}))
        yield own, one.pid


@contextlib.contextmanager
def gateway(folder, stores=1):
    from gateway_server import Gateway

    # No limit that a benchmark reaches.
    sections = {"read": 'most_values = 100000000\nseconds = "600s"', "limits": "client_requests_a_second = 1000000"}
    if stores > 1:
        sections["stores"] = f"files = {json.dumps([f'{at}.store' for at in range(stores)])}\nmost = {stores}"
        os.mkdir(folder := os.path.join(folder, f"over{stores}"))
    one = Gateway(folder, sections, SERIES, size="2G").start()
    try:
        yield one.port, one.process.pid
    finally:
        one.close()


def processes(pid):
    """A process and its children."""
    with open(f"/proc/{pid}/task/{pid}/children") as file:
        return [pid, *map(int, file.read().split())]


def peak(pid):
    """The greatest memory of a process and its children, in MiB."""
    total = 0
    for one in processes(pid):
        with open(f"/proc/{one}/status") as file:
            total += next(int(line.split()[1]) for line in file if line.startswith("VmHWM"))
    return total / 1024


def processor_seconds(pid):
    """The seconds of a processor that a process and its children took."""
    total = 0
    for one in processes(pid):
        with open(f"/proc/{one}/stat") as file:
            total += sum(map(int, file.read().rpartition(")")[2].split()[11:13]))
    return total / os.sysconf("SC_CLK_TCK")


def measure_writes(servers):
    """Points a second of each server, in turns, and what a point takes of a processor."""
    found, begins = {}, {}
    for _ in range(ROUNDS):
        for kind in KINDS:
            for clients in (1, 4):
                for name, (port, pid) in servers.items():
                    before = processor_seconds(pid)
                    count, seconds, begins[name, kind] = written(port, kind, clients, begins.get((name, kind), 0))
                    taken = processor_seconds(pid) - before
                    found.setdefault((name, kind, clients), []).append((count / seconds, 10**6 * taken / count))
    print(f"points a second, and processor's microseconds a point: least, middle and greatest of {ROUNDS} rounds; load {os.getloadavg()[0]:.1f}")
    for (name, kind, clients), rows in found.items():
        rates, taken = ([min(column), statistics.median(column), max(column)] for column in zip(*rows))
        print(f"{name:9} {kind:28} {clients} {' '.join(f'{rate:9,.0f}' for rate in rates)}   {' '.join(f'{one:8.2f}' for one in taken)}")
    for name, (_, pid) in servers.items():
        print(f"{name:9} {peak(pid):8.0f} MiB at most")


def make_blocks(values):
    """The series as blocks of prometheus, in the folder data."""
    with open("openmetrics", "w") as file:
        file.write("# TYPE walk gauge\n")
        file.writelines(f"walk {value / 1000:.3f} {T + at}\n" for at, value in enumerate(values))
        file.write("# EOF\n")
    words = ["promtool", "tsdb", "create-blocks-from", "openmetrics", "--max-block-duration=3000h", "openmetrics", "data"]
    subprocess.run(words, check=True, stdout=subprocess.DEVNULL)
    os.remove("openmetrics")


@contextlib.contextmanager
def prometheus(free_port):
    own = free_port()
    with open("prometheus.yml", "w") as file:
        file.write("global: {}\n")
    words = ("--config.file=prometheus.yml", "--storage.tsdb.path=data", "--storage.tsdb.retention.time=100y", f"--web.listen-address=127.0.0.1:{own}")
    with process("prometheus.log", shutil.which("prometheus"), *words) as one:
        wait_for(own, "/-/ready")
        yield own, one.pid


def load_influxd(port, values):
    for begin in range(0, len(values), 20_000):
        lines = "".join(f"walk v={value / 1000:.3f} {T + at}\n" for at, value in enumerate(values[begin : begin + 20_000], begin))
        asked(port, "POST", "/write?db=bench&precision=s", lines.encode())


def greatest_by_promql(port, begin, step, less=0):
    """The greatest value of each of STEPS steps from a time on, by Prometheus' API."""
    words = {"query": f"max_over_time(walk[{1000 * step - less}ms])", "start": begin + step - 1, "end": begin + STEPS * step - 1, "step": step}
    (line,) = json.loads(asked(port, "GET", "/api/v1/query_range?" + urllib.parse.urlencode(words)))["data"]["result"]
    return [float(value) for _, value in line["values"]]


def greatest_by_influxql(port, begin, step):
    # influxd's steps are multiples of their length, which `begin` is then.
    query = f"SELECT MAX(v) FROM walk WHERE time >= {begin}s AND time < {begin + STEPS * step}s GROUP BY time({step}s)"
    told = json.loads(asked(port, "GET", "/query?" + urllib.parse.urlencode({"db": "bench", "q": query})))
    return [float(value) for _, value in told["results"][0]["series"][0]["values"] if value is not None]


def measure_queries(servers):
    """The seconds of range queries of each server, in turns: the middle one, and that below which 99 of 100 lie."""
    # Else now and then an answer would wait for this process's own collection of garbage, which looks at all values: for 0.1 s.
    gc.freeze()
    print(f"milliseconds of the greatest of {STEPS} steps over {QUERIED:,} points: middle, 99th of 100, and how many; load {os.getloadavg()[0]:.1f}")
    for share in (100, 10, 1):
        step = QUERIED // share // STEPS
        taken, draw = {name: [] for name in servers}, random.Random(share)
        while asked_now := {name: one for name, one in servers.items() if len(taken[name]) < ASKS and sum(taken[name]) < SECONDS}:
            begin = (T // step + 1 + draw.randrange(max(1, (QUERIED - STEPS * step) // step))) * step if share > 1 else T // step * step + step
            count = STEPS if share > 1 else STEPS - 1
            answers = {}
            for name, (port, _, greatest) in asked_now.items():
                begun = time.perf_counter()
                answers[name] = greatest(port, begin, step)[:count]
                taken[name].append(time.perf_counter() - begun)
            if len(set(map(tuple, answers.values()))) > 1:
                raise Failed(f"the answers differ at {begin}, step {step}")
        for name, seconds in taken.items():
            seconds.sort()
            last = seconds[min(len(seconds) - 1, len(seconds) * 99 // 100)]
            print(f"{name:12} 1/{share:<4} of the series {1000 * statistics.median(seconds):10.1f} {1000 * last:10.1f} {len(seconds):6}")
    for name, (_, pid, _) in servers.items():
        print(f"{name:12} {peak(pid):8.0f} MiB at most")


def can_run(word):
    from gateway_server import MISSING

    if MISSING:
        print(f"{word}: passed over: {MISSING}")
    return not MISSING


def measure_ranges():
    from gateway_server import free_port

    if not can_run("ranges"):
        return

    folder, values = os.getcwd(), list(walk(QUERIED))
    os.mkdir("stores")
    lines = (line.replace("create walk 0 ", f"create walk {T} ").replace(" 1 0", " 1 3") if line.startswith("create") else line
             for line in lines_of_series(values, "walk"))
    build_store("stores/gateway.store", BLOCKS, lines)
    with contextlib.ExitStack() as stack:
        servers = {"gateway": (*stack.enter_context(gateway(folder)), greatest_by_promql)}
        if shutil.which("influxd"):
            servers["influxd"] = (*stack.enter_context(influxd(folder, free_port)), greatest_by_influxql)
            load_influxd(servers["influxd"][0], values)
        if shutil.which("prometheus"):
            make_blocks(values)
            # Prometheus 2 counts a value at the very begin of a range as in it.
            servers["prometheus"] = (*stack.enter_context(prometheus(free_port)), functools.partial(greatest_by_promql, less=1))
        measure_queries(servers)


def measure_gateway():
    from gateway_server import free_port

    if not can_run("gateway"):
        return
    folder = os.getcwd()
    with contextlib.ExitStack() as stack:
        servers = {"gateway": stack.enter_context(gateway(folder)), **{f"{count} stores": stack.enter_context(gateway(folder, count)) for count in (4, 16)}}
        if shutil.which("influxd"):
            servers["influxd"] = stack.enter_context(influxd(folder, free_port))
        measure_writes(servers)
