"""What a client is sent for views of a long series, and the seconds that a view takes. See bench/run."""
import io
import shlex
import subprocess
import sys

from measuring import HEIGHT, PROGRAM, ROOT, WIDTH, build_store, least_processor, lines_of_series, measure_all, walk

COUNT, VIEWS, ROUNDS = 1000000, 20, 5
DAY, HOUR = 86400, 3600
STORE, BLOCKS = "views.store", 16384
CLIENT = f"{ROOT}/clients/python/chart_client.py"
POINT, ROWS_HEAD, ROW = 16, 31, 34  # bytes: a time and a value; of a Rows frame the fields before its rows, and a row


def noise(count):
    """Values from -1,000 to 1,000 in no order, from the generator of the random walk."""
    before = 0
    for value in walk(count):
        yield (value - before) * 10
        before = value


def switched():
    """A day of a machine that is switched once, at noon: a value a second, and one missing each hour."""
    return [None if second % HOUR == HOUR // 2 else 2000 if second < DAY // 2 else 2500 for second in range(DAY)]


def sunspots():
    """The yearly numbers of sunspots of examples/, in tenths."""
    with open(f"{ROOT}/examples/sunspots.txt") as file:
        return [int(line) for line in file.read().split()]


def series():
    """The series that are looked at: a name, and the values of its slots."""
    yield "noise", list(noise(COUNT))
    yield "a day with a switch at noon", switched()
    yield "sunspots", sunspots()
    yield "a random walk", list(walk(COUNT))


def view(count=COUNT):
    return f"view 1 s {WIDTH} {HEIGHT} 0 {count} auto"


def steps(values):
    """What a session asks, one after the other: a name, the request lines, and the slots of the window."""
    count = len(values)
    half = count // 2
    greatest = max(value for value in values if value is not None)
    yield "first view", ["open 1", view(count)], count
    yield "the same again", [view(count)], count
    yield "after one correction", [f"set s {half + 1} {greatest + 1000}", view(count)], count
    yield "zoom to the middle half", [f"zoom 1 {half - half // 2} {half + half // 2}"], half // 2 * 2
    yield "pan by a tenth of that", [f"pan 1 {half // 10}"], half // 2 * 2


def write_lines(name, lines):
    with open(name, "w") as file:
        file.writelines(f"{line}\n" for line in lines)


def answers(replies):
    """The bytes sent, and the picture, of each view among the replies of `run`."""
    replies = io.BytesIO(replies)
    for line in iter(replies.readline, b""):
        if line.startswith(b"refused "):
            sys.exit(f"a request was refused: {line.decode()}")
        if line.startswith(b"view "):
            head = replies.readline() + replies.readline()
            w, h = (int(word) for word in head.split()[1:])
            yield int(line.split()[3]), head + replies.read(h * ((w + 7) // 8))


def output_of(words, given):
    with open(given, "rb") as given:
        return subprocess.run(words, stdin=given, stdout=subprocess.PIPE, check=True).stdout


def print_bytes(name, values):
    asked = list(steps(values))
    write_lines("session", [line for _, added, _ in asked for line in added])
    sent = [sent for sent, _ in answers(output_of([PROGRAM, STORE, "run"], "session"))]
    print(f"a session over {len(values)} slots, {name}, {WIDTH} by {HEIGHT} pixels: the bytes of each view's frame, and for comparison")
    print(f"a frame of the first, least, greatest and last value of each column, and {POINT} bytes for each point")
    print(f"{'request':26}{'sent':>12}{'columns':>12}{'points':>12}")
    for (request, _, slots), count in zip(asked, sent, strict=True):
        print(f"{request:26}{count:12}{ROWS_HEAD + ROW * min(WIDTH, slots):12}{POINT * slots:12}")
    print(f"{'all five':26}{sum(sent):12}{sum(ROWS_HEAD + ROW * min(WIDTH, slots) for _, _, slots in asked):12}")


def piped(*programs):
    """The words that run these programs, each given what the one before it writes."""
    return ["sh", "-c", " | ".join(shlex.join(words) for words in programs)]


def ways():
    """The rows of the table of seconds: a name, the words, and whether it is given frames in place of lines."""
    run, serve, draw = ([PROGRAM, STORE, word] for word in ("run", "serve", "draw"))
    client = [sys.executable, CLIENT]
    yield "run", run, False
    yield "serve", serve, False
    yield "serve | draw", piped(serve, draw), False
    yield "serve | client in Python", piped(serve, client), False
    yield "draw", draw, True
    yield "client in Python", client, True


def measure_ways():
    """The runs of each way without views, and with VIEWS sessions of one first view each."""
    inputs = {"without": VIEWS * ["open 1", "close 1"], "with": VIEWS * ["open 1", view(), "close 1"]}
    rows = []
    for kind, asked in inputs.items():
        write_lines(f"{kind}.lines", asked)
        with open(f"{kind}.frames", "wb") as file:
            file.write(output_of([PROGRAM, STORE, "serve"], f"{kind}.lines"))
        for name, words, is_framed in ways():
            rows.append((f"{name}, {kind}", words, f"{kind}.{'frames' if is_framed else 'lines'}"))
    return measure_all(rows, ROUNDS)


def pictures_of(name, written):
    """The pictures that a way wrote; `serve` writes none."""
    if name == "run":
        return b"".join(picture for _, picture in answers(written))
    return None if name == "serve" else written


def print_seconds():
    runs = measure_ways()
    least = least_processor(runs)
    print(f"processor seconds of a first view: the least of {ROUNDS} rounds with {VIEWS} of them less that without, over {VIEWS}")
    print(f"{'program':26}{'a view s':>12}{'without s':>12}{'peak MiB':>12}")
    pictures = set()
    for name, _, _ in ways():
        without, runs_with = least[f"{name}, without"], runs[f"{name}, with"]
        peak = max(run[1] for run in runs_with)
        print(f"{name:26}{(least[f'{name}, with'] - without) / VIEWS:12.4f}{without:12.3f}{peak:12.1f}")
        pictures |= {pictures_of(name, run[2]) for run in runs_with} - {None}
    print(f"the pictures of all ways {'are the same bytes' if len(pictures) == 1 else 'DIFFER'}")


def measure_views():
    """The bytes for each series, and the seconds for the last one."""
    for name, values in series():
        build_store(STORE, BLOCKS, lines_of_series(values))
        print_bytes(name, values)
    print_seconds()
