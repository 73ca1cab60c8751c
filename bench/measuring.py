"""What the benchmarks share: the built program, its stores, the values that they draw, and the seconds and the memory of a run."""
import os
import resource
import shutil
import subprocess
import tempfile
import time

ROOT = os.path.dirname(os.path.dirname(os.path.realpath(__file__)))
PROGRAM = f"{ROOT}/crates/chart_program/out/chart_program"
WIDTH, HEIGHT = 1000, 400
BLOCK, LINE = 4096, 256  # bytes of a block; the most values of a line
MEMORY = "/dev/shm"  # where Linux keeps files in memory, on which a sync costs nothing


def walk(count):
    """The values of a random walk that starts at 0, with steps of -100 to 100 from a linear congruential generator."""
    state, value = 7, 0
    for _ in range(count):
        state = (state * 6364136223846793005 + 1442695040888963407) % 2**64
        value += (state >> 33) % 201 - 100
        yield value


def is_built():
    """Has ./chart build the program where it must, by a chart of nothing."""
    how = {"stdin": subprocess.DEVNULL, "stdout": subprocess.DEVNULL}
    return subprocess.run([f"{ROOT}/chart", "-", "plot", "1", "1"], **how).returncode == 0


def make_store(path, blocks):
    """Makes an empty store in a file."""
    with open(path, "wb") as file:
        file.truncate(BLOCK * blocks)
    subprocess.run([PROGRAM, path, "init"], stdin=subprocess.DEVNULL, check=True)


def build_store(path, blocks, lines):
    """Makes a store of what these request lines do: in memory where that can be, since it isn't measured."""
    with tempfile.TemporaryDirectory(dir=MEMORY if os.path.isdir(MEMORY) else None) as folder:
        built = os.path.join(folder, "store")
        make_store(built, blocks)
        with open(os.path.join(folder, "replies"), "w+b") as replies:
            with subprocess.Popen([PROGRAM, built, "run"], stdin=subprocess.PIPE, stdout=replies) as program:
                program.stdin.writelines(f"{line}\n".encode() for line in lines)
            replies.seek(0)
            if program.returncode or b"refused" in replies.read():
                raise subprocess.CalledProcessError(program.returncode, program.args)
        # Without the part that was never written.
        subprocess.run(["cp", "--sparse=always", built, path], check=True)


def lines_of_series(values, name="s"):
    """The request lines that make the series of this name of these values; None is a slot without one."""
    yield f"create {name} 0 1 0"
    for at in range(0, len(values), LINE):
        yield f"append {name} {' '.join('-' if value is None else str(value) for value in values[at : at + LINE])}"


def counted_calls(words, given, calls):
    """How often a run makes these calls of the system, or None where `strace` isn't installed."""
    if not shutil.which("strace"):
        return None
    with open(given, "rb") as given:
        traced = ["strace", "-f", "-c", "-o", "calls", "-e", f"trace={','.join(calls)}", *words]
        subprocess.run(traced, stdin=given, stdout=subprocess.DEVNULL, check=True)
    with open("calls") as counts:
        rows = [line.split() for line in counts]
    return sum(int(row[3]) for row in rows if row and row[-1] in calls)


def processor_seconds():
    """The seconds of the processor that the children which have ended took, and those that they waited for."""
    used = resource.getrusage(resource.RUSAGE_CHILDREN)
    return used.ru_utime + used.ru_stime


def measure(words, given):
    """Seconds, the peak of memory in MiB, what was written, and the seconds of the processor, of one run on the file given."""
    with open(given, "rb") as given, open("written", "wb") as written:
        start, before = time.perf_counter(), processor_seconds()
        # A child of this process would count this process's own memory as its peak, so a small one starts it.
        subprocess.run(["/usr/bin/time", "-f", "%M", "-o", "peak", *words], stdin=given, stdout=written, check=True)
        seconds, processor = time.perf_counter() - start, processor_seconds() - before
    with open("peak") as peak, open("written", "rb") as written:
        return seconds, int(peak.read()) / 1024, written.read(), processor


def measure_all(rows, rounds):
    """The runs of each row: a name, the words or what is missing, and the file given. The rows take turns."""
    runs = {name: [] for name, words, _ in rows if isinstance(words, list)}
    for _ in range(rounds):
        for name, words, given in rows:
            if name in runs:
                runs[name].append(measure(words, given))
    return runs


def least_seconds(runs):
    """The least seconds of each row by the clock."""
    return {name: min(run[0] for run in runs[name]) for name in runs}


def least_processor(runs):
    """The least seconds of the processor of each row, which other work on the machine changes little."""
    return {name: min(run[3] for run in runs[name]) for name in runs}


def print_table(title, rows, runs, base):
    least, processor = least_seconds(runs), least_processor(runs)
    print(title)
    print(f"{'program':24}{'least s':>9}{'ratio':>8}{'processor s':>13}{'ratio':>8}{'peak MiB':>10}")
    for name, words, _ in rows:
        if name not in runs:
            print(f"{name:24}  {words}")
            continue
        peak = max(run[1] for run in runs[name])
        ratio, of_it = (f"{by[name] / by[base]:8.2f}" if base in by else f"{'':8}" for by in (least, processor))
        print(f"{name:24}{least[name]:9.3f}{ratio}{processor[name]:13.3f}{of_it}{peak:10.1f}")
