"""The page of clients/web under test: its stores, what it shows, and what the program's `draw` makes of the same."""
import base64
import contextlib
import math
import os
import random
import shutil
import subprocess
import sys
import tempfile
import time
import urllib.parse
import urllib.request

from book_model import frames_of, spelled
from browser_driver import OPENER, require, started, wait_for
from built_program import ROOT, SECONDS, Failed

PROGRAMS = [os.path.join(ROOT, path) for path in ("crates/chart_program/out/chart_program", "dist/chart_program")]
PROGRAM = next((path for path in PROGRAMS if os.access(path, os.X_OK)), None)
SERVER = os.path.join(ROOT, "clients/web/serve.py")
MODULE = os.path.join(ROOT, "dist/chart_client.wasm")
START, STEP, SLOTS = 1672531200, 60, 30000
WHOLE = (START, START + STEP * SLOTS)

# What stands in clients/web/page/paint.js too: for each place in a panel the pixel of its series, as blue, green and red behind the alpha.
INKS = {"light": [0xFF9C4F1B, 0xFF123AB2, 0xFF4A7018, 0xFF963B7A], "dark": [0xFFFFB88A, 0xFF7AA2F5, 0xFFA6D279, 0xFFF5A6D3]}

# A canvas as a raw PBM, in base 64, and where it is marked as a cover, after how many coefficients; a pixel that is neither of the two colours
# is told.
READ_CANVAS = """
const [panel, place, inks] = arguments;
const part = document.querySelectorAll(".panel")[panel];
const canvas = part.querySelectorAll("canvas")[place];
const { width, height } = canvas;
const colours = new Uint32Array(canvas.getContext("2d").getImageData(0, 0, width, height).data.buffer);
const ink = inks[matchMedia("(prefers-color-scheme: dark)").matches ? "dark" : "light"][place];
const size = Math.ceil(width / 8);
const bytes = new Uint8Array(size * height);
for (let at = 0; at < colours.length; at += 1) {
  const x = at % width;
  if (colours[at] === ink) {
    bytes[Math.floor(at / width) * size + (x >> 3)] |= 128 >> (x & 7);
  } else if (colours[at] !== 0) {
    throw new Error("a pixel of another colour");
  }
}
let text = "";
for (let at = 0; at < bytes.length; at += 4096) {
  text += String.fromCharCode(...bytes.subarray(at, at + 4096));
}
return [width, height, btoa(text), part.querySelector(".covered").hidden ? null : (canvas.dataset.cover ?? null)];
"""
READ_PAGE = """
const text = (id) => document.getElementById(id)?.textContent ?? "";
const ids = ["status", "why", "told", "moment", "aloud", "bytes", "client", "t0", "t1", "window_fault", "found", "chosen", "answer"];
const texts = (part, selector) => [...part.querySelectorAll(selector)].map((it) => it.textContent);
const panels = [...document.querySelectorAll(".panel")].map((it) => {
  const plot = it.querySelector(".plot");
  return {
    t0: plot.dataset.t0 ?? null, t1: plot.dataset.t1 ?? null, drawings: Number(plot.dataset.drawings ?? 0), label: plot.getAttribute("aria-label"),
    fault: it.querySelector(".fault").textContent, covered: !it.querySelector(".covered").hidden,
    names: [...it.querySelectorAll("canvas")].map((canvas) => canvas.dataset.name),
    values: texts(it, ".legend .value"),
    ticks: [...it.querySelectorAll(".values span")].map((tick) => [tick.textContent, parseFloat(tick.style.top)]),
    lines: it.querySelectorAll(".grid i").length,
  };
});
const times = [...document.querySelectorAll("#times span")].map((tick) => [tick.textContent, parseFloat(tick.style.left)]);
const drawings = Number(document.body.dataset.drawings ?? 0);
const isDrawing = document.body.hasAttribute("data-drawing");
const state = document.getElementById("status").dataset.state;
return { ...Object.fromEntries(ids.map((id) => [id, text(id)])), panels, times, drawings, isDrawing, state };
"""


def value_of(slot, chance):
    return int(900 * math.sin(slot / 700) + 300 * math.sin(slot / 97)) + chance.randint(-80, 80) + (2500 if chance.random() < 0.0004 else 0)


def values_of(slots):
    chance = random.Random(3)
    return [value_of(slot, chance) for slot in range(slots)]


def edit(store, *lines):
    subprocess.run([PROGRAM, store, "run"], input=spelled(lines), stdout=subprocess.PIPE, check=True)


def load(store, name, rows):
    subprocess.run([PROGRAM, store, "load", name], input=rows.encode(), stdout=subprocess.PIPE, check=True)


def make_store(store, slots):
    """A store with a series of so many slots, `sea`, two of fewer, and one of a few."""
    with open(store, "wb") as file:
        file.truncate(4096 * (2048 + slots // 32))
    subprocess.run([PROGRAM, store, "init"], check=True, stdout=subprocess.PIPE)
    edit(store, f"create sea {START} {STEP} 0", "create few 0 10 0", "append few 4 7 2 - 9")
    edit(store, f"create tide {START} {10 * STEP} 1", f"create wind {START} {10 * STEP} 2")
    values = values_of(slots)
    load(store, "sea", "".join(f"{START + STEP * slot},{value}\n" for slot, value in enumerate(values)))
    some = values[:: max(1, slots // 3000)]
    load(store, "tide", "".join(f"{START + 10 * STEP * slot},{1500 - value / 3:.1f}\n" for slot, value in enumerate(some)))
    load(store, "wind", "".join(f"{START + 10 * STEP * slot},{value / 50:.2f}\n" for slot, value in enumerate(reversed(some))))


def ends_of(frame):
    """The ends of the range of a View or Rows frame."""
    at = {5: 31, 6: 13}[frame[4]]
    return [int.from_bytes(frame[at + 8 * end : at + 8 * end + 8], "big", signed=True) for end in range(2)]


def pbm_of(width, height, bits):
    return b"P4\n%d %d\n" % (width, height) + base64.b64decode(bits)


def is_black(frames):
    """Whether the last picture of some frames has a black pixel."""
    pictures = subprocess.run([PROGRAM, "-", "draw"], input=frames, stdout=subprocess.PIPE, check=True).stdout
    width, height = map(int, pictures[3 : pictures.index(b"\n", 3)].split())
    return any(pictures[-height * ((width + 7) // 8) :])


class Page:
    """The page in the browser, over a store, and the token of its server."""

    def __init__(self, browser, store, screenshots, address):
        self.browser, self.store, self.screenshots = browser, store, screenshots
        self.address, _, self.fragment = address.partition("#")
        self.token = urllib.parse.parse_qs(self.fragment)["token"][0]

    def open(self, query):
        self.do(lambda: self.browser.send("/url", {"url": f"{self.address.partition('?')[0]}?{query}#{self.fragment}"}), is_new=True)

    def do(self, step, is_new=False):
        """Does a step, and waits until the page has drawn behind it, and draws no more."""
        before = 0 if is_new else self.read()["drawings"]
        step()
        wait_for(lambda: self.has_drawn(before), lambda: f"nothing was drawn: {self.read()}")

    def has_drawn(self, before=0):
        told = self.read()
        return told["drawings"] > before and not told["isDrawing"]

    def read(self):
        return self.browser.run(READ_PAGE)

    def request(self, line):
        """The frame of a line, asked as another page would."""
        headers = {"X-Chart-Token": self.token}
        request = urllib.request.Request(self.address.partition("?")[0] + "request", line.encode(), headers)
        with OPENER.open(request, timeout=SECONDS) as answer:
            return answer.read()

    def program(self, words, data=b""):
        """What the program says over a copy of the store."""
        with tempfile.NamedTemporaryFile() as copy:
            shutil.copyfile(self.store, copy.name)
            return subprocess.run([PROGRAM, copy.name, *words], input=data, stdout=subprocess.PIPE, check=True).stdout

    def scales(self):
        return {row.split()[0]: int(row.split()[3]) for row in self.program(["list"]).decode().splitlines()}

    def asked(self):
        """The panels that the address asks for."""
        panels = []
        for key, value in urllib.parse.parse_qsl(urllib.parse.urlsplit(self.browser.run("return location.href")).query):
            if key == "panel":
                panels.append({"names": value.split(), "factors": None, "filter": "", "range": ""})
            elif key == "sum":
                one, first, other, second = value.split()
                panels.append({"names": [first, second], "factors": [int(one), int(other)], "filter": "", "range": ""})
            elif key in ("filter", "range"):
                panels[-1][key] = value
        return panels

    def ranges(self, asked, views, names):
        """The range of each series of a panel: a fixed one, its own, or what holds those of all."""
        scales = self.scales()
        finest, coarsest = max(scales[name] for name in names), min(scales[name] for name in names)
        unit = 10 ** (finest - coarsest)
        if asked["range"]:
            lo, hi = (round(float(end) * 10**coarsest) * unit for end in asked["range"].split(".."))
        else:
            lines = "open 1 131072\n" + "".join(f"view 1 {words} auto{where}\n" for words, where in views)
            opened, *frames = frames_of(self.program(["serve"], lines.encode()))
            shown = [is_black(opened + b"".join(frames[: at + 1])) for at in range(len(frames))]
            ends = [(name, ends_of(frame)) for name, frame, is_shown in zip(names, frames, shown) if is_shown or not any(shown)]
            scaled = [[end * 10 ** (finest - scales[name]) for end in pair] for name, pair in ends]
            lo, hi = min(pair[0] for pair in scaled) // unit * unit, -(-max(pair[1] for pair in scaled) // unit) * unit
        return [f"{lo // 10 ** (finest - scales[name])}..{hi // 10 ** (finest - scales[name])}" for name in names]

    def lines(self, number, told, size):
        """The request lines of the pictures of a panel that is told, of a size."""
        asked = self.asked()[number]
        where = f" where {asked['filter']}" if asked["filter"] else ""
        views = [(f"{name} {size[0]} {size[1]} {told['t0']} {told['t1']}", where) for name in told["names"]]
        return [f"view 1 {words} {range_}{where}" for (words, _), range_ in zip(views, self.ranges(asked, views, told["names"]))]

    def derived(self, asked, told, size):
        """What `derive` makes of the sum of a panel, over the window that it tells."""
        scales = [self.scales()[name] for name in asked["names"]]
        factors = [factor * 10 ** (max(scales) - scale) for factor, scale in zip(asked["factors"], scales)]
        range_ = "..".join(str(round(float(end) * 10 ** max(scales))) for end in asked["range"].split("..")) if asked["range"] else "auto"
        line = " ".join(map(str, [*asked["names"], *factors, *size, told["t0"], told["t1"], range_]))
        return self.program(["derive"], line.encode())

    def wanted(self, number, told, size):
        """What `draw` makes of the window that a panel tells, for each of its series, or `derive` of its sum."""
        if self.asked()[number]["factors"]:
            return [self.derived(self.asked()[number], told, size)]
        lines = "".join(line + "\n" for line in ["open 1 131072", *self.lines(number, told, size)])
        frames = self.program(["serve"], lines.encode())
        pictures = subprocess.run([PROGRAM, "-", "draw"], input=frames, stdout=subprocess.PIPE, check=True).stdout
        length = len(pictures) // len(told["names"])
        return [pictures[at * length : (at + 1) * length] for at in range(len(told["names"]))]

    def canvas(self, panel, place=0):
        """A canvas as a PBM, and its size."""
        width, height, bits, _ = self.browser.run(READ_CANVAS, panel, place, INKS)
        return pbm_of(width, height, bits), (width, height)

    def cover(self):
        """What the first panel shows where that is a cover of some coefficients, of how many, and its size; else None."""
        width, height, bits, count = self.browser.run(READ_CANVAS, 0, 0, INKS)
        return (pbm_of(width, height, bits), count, (width, height)) if count not in (None, "0") else None

    def compare(self):
        """Compares each pixel of all canvases; gives the black ones of the first, and its size."""
        told = self.read()["panels"]
        require(told, "there is no panel")
        for number, panel in enumerate(told):
            got = [self.canvas(number, place) for place in range(len(panel["names"]))]
            wanted = self.wanted(number, panel, got[0][1])
            for name, one, other in zip(panel["names"], got, wanted):
                require(one[0] == other, f"the canvas of {name} in panel {number + 1} isn't what `draw` makes: {panel}")
        pbm, size = self.canvas(0)
        return sum(bin(byte).count("1") for byte in pbm[pbm.index(b"\n", 3) + 1 :]), *size

    def compare_in_the_end(self):
        """Compares, again and again until all is equal: where what changes comes in parts, each told and drawn behind the other."""
        ends = time.monotonic() + SECONDS
        while True:
            try:
                return Page.compare(self)
            except Failed:
                if time.monotonic() > ends:
                    raise
                time.sleep(0.02)

    def show(self, name):
        if self.screenshots:
            os.makedirs(self.screenshots, exist_ok=True)
            with open(os.path.join(self.screenshots, f"{name}.png"), "wb") as file:
                file.write(base64.b64decode(self.browser.send("/screenshot")))

    def end(self, name):
        """The time behind the last slot of a series."""
        rows = map(str.split, self.program(["list"]).decode().splitlines())
        return next(int(start) + int(step) * int(slots) for it, start, step, _, slots in rows if it == name)

    def window(self):
        told = self.read()["panels"][0]
        return int(told["t0"]), int(told["t1"])

    def plot(self, number=0):
        return f".panel:nth-of-type({number + 1}) .plot"

    def press(self, *keys, number=0):
        """Presses keys over a panel's chart."""
        self.browser.run("document.querySelector(arguments[0]).focus()", self.plot(number))
        self.browser.press(*keys)


@contextlib.contextmanager
def served(browser, store, screenshots, *words, **pipes):
    module = [] if "--module" in words else ["--module", MODULE]
    with started([sys.executable, SERVER, store, "--program", PROGRAM, *module, *words], **pipes) as server:
        address = server.stdout.readline().strip()
        require(address.startswith("http://127.0.0.1:"), "serve.py gives no address")
        yield Page(browser, store, screenshots, address), server
