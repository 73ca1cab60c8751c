"""The pictures of the views, each drawn from all points that it keeps, one segment after the other."""
import os
import re
import subprocess
import sys

SIGNS = {"=": "=="}


class Series:
    def __init__(self, start, step):
        self.start, self.step, self.slots = start, step, []

    def change(self, slot, values):
        self.slots += [None] * (slot + len(values) - len(self.slots))
        self.slots[slot : slot + len(values)] = values


def kept(series, t0, t1, text):
    """The points of the window for which the filter holds, in Python's words, which bind as the filter's do."""
    python = re.sub(r"<=|>=|!=|=", lambda sign: SIGNS.get(sign[0], sign[0]), text or "True")
    holds = eval(f"lambda t, v: {python}")
    points = [(series.start + slot * series.step, value) for slot, value in enumerate(series.slots) if value is not None]
    return [(t, v) for t, v in points if t0 <= t < t1 and holds(t, v)]


def segment(x1, y1, x2, y2):
    dx, dy, way = x2 - x1, abs(y2 - y1), 1 if y1 <= y2 else -1
    if dx == dy == 0:
        return [(x1, y1)]
    if dx >= dy:
        return [(x, y1 + way * ((2 * (x - x1) * dy + dx) // (2 * dx))) for x in range(x1, x2 + 1)]
    return [(x1 + (2 * n * dx + dy) // (2 * dy), y1 + way * n) for n in range(dy + 1)]


def picture(series, w, h, t0, t1, shown, text):
    points = kept(series, t0, t1, text)
    values = [v for _, v in points] or [0]
    lo, hi = (min(values), max(values)) if shown == "auto" else (int(end) for end in shown.split(".."))
    places = [((t - t0) * w // (t1 - t0), (v - lo) * (h - 1) // (hi - lo) if lo < hi else 0) for t, v in points]
    black = set(places)
    for one, other in zip(places, places[1:]):
        black.update(segment(*one, *other))
    out = b"P4\n%d %d\n" % (w, h)
    for y in range(h - 1, -1, -1):
        bits = "".join("1" if (x, y) in black else "0" for x in range(w)).ljust((w + 7) // 8 * 8, "0")
        out += int(bits, 2).to_bytes(len(bits) // 8, "big")
    return out


def main(lines):
    book, last = {}, {}
    for line in lines:
        line, _, text = line.partition(" where ")
        word, name, *rest = line.split(" ")
        if word == "create":
            book[name] = Series(int(rest[0]), int(rest[1]))
        elif word == "append":
            book[name].change(len(book[name].slots), [None if value == "-" else int(value) for value in rest])
        elif word == "set":
            book[name].change((int(rest[0]) - book[name].start) // book[name].step, [int(rest[1])])
        elif word == "clear":
            slot, count = (int(rest[0]) - book[name].start) // book[name].step, int(rest[1])
            book[name].slots = [None if slot <= i < slot + count else value for i, value in enumerate(book[name].slots)]
        elif word == "view":
            last[name] = (book[rest[0]], *(int(number) for number in rest[1:5]), rest[5], text)
        elif word == "zoom":
            last[name] = (*last[name][:3], int(rest[0]), int(rest[1]), *last[name][5:])
        elif word == "pan":
            series, w, h, t0, t1, *more = last[name]
            last[name] = (series, w, h, t0 + int(rest[0]), t1 + int(rest[0]), *more)
        if word in ("view", "zoom", "pan"):
            sys.stdout.buffer.write(picture(*last[name]))


here = os.path.dirname(os.path.realpath(__file__))
main(subprocess.run([sys.executable, os.path.join(here, "stdin.py")], stdout=subprocess.PIPE, check=True).stdout.decode().splitlines())
