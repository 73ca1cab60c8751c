"""What scripts/gate/browser looks at where something changes: edits, a window that follows, slow and lost lines, an ended program, a full house."""
import contextlib
import http.client
import os
import random
import re
import signal
import socket
import subprocess
import urllib.parse

from browser_driver import KEYS, Failed, require, wait_for
from browser_page import PROGRAM, ROOT, SLOTS, START, STEP, edit, make_store, served
import browser_axes
import browser_page

# `seeing(seen)` has each body of request lines seen before it is posted, or sent by the page's WebSocket; where bytes are given for it they are
# its answer. What it gives ends that.
SEEING = """
const seeing = (seen) => {
  const [fetching, sending] = [window.fetch, WebSocket.prototype.send];
  window.fetch = async (path, ...words) => {
    const answer = path === "request" ? await seen(words[0].body, "posted") : null;
    return answer ? new Response(answer) : fetching(path, ...words);
  };
  WebSocket.prototype.send = async function (body) {
    const answer = await seen(body, "sent");
    const come = (data) => this.dispatchEvent(new MessageEvent("message", { data }));
    return answer ? ['{"pushed":0}', answer.buffer, ""].forEach(come) : sending.call(this, body);
  };
  return () => ([window.fetch, WebSocket.prototype.send] = [fetching, sending]);
};
const noFrame = new Uint8Array([0, 0, 0, 5, 99, 0, 0, 0, 0]);
"""
# The next answer is no frame, and of the next client the first drawing fails.
FAIL_TWICE = (
    SEEING
    + """
const made = WebAssembly.Instance;
const ends = seeing(() => ends() && noFrame);
WebAssembly.Instance = function (...words) {
  WebAssembly.Instance = made;
  const fails = () => {
    throw new WebAssembly.RuntimeError("unreachable");
  };
  return { exports: { ...new made(...words).exports, chart_draw: fails } };
};
"""
)
# The next answer is no frame, so another session is begun; that one is told to have given way.
GIVE_WAY = (
    SEEING
    + """
const ends = seeing(() => {
  ends();
  const sent = window.fetch;
  window.fetch = async (path, ...words) => {
    window.fetch = path === "events" ? sent : window.fetch;
    return path === "events" ? new Response("event: closed\\ndata: true\\n\\n") : sent(path, ...words);
  };
  return noFrame;
});
"""
)
# Answers wait until they are let go.
HOLD = (
    SEEING
    + """
const held = new Promise((done) => (window.letGo = () => done()));
seeing(() => held);
"""
)


def wait_until_live(page):
    wait_for(lambda: page.read()["state"] == "live", lambda: f"the page isn't live: {page.read()}")


def fail_module(page):
    """A frame that is none gives the client up. The next one's module traps at its first drawing, and is given up too; then a new one draws."""
    if not os.path.exists(browser_page.MODULE):
        return
    page.open("panel=sea")
    page.browser.run(FAIL_TWICE)
    page.do(lambda: page.browser.click("#in"))
    wait_until_live(page)
    page.compare()


def give_way(page):
    """A page whose session gave way says so, and a click begins another one."""
    page.open("panel=sea")
    page.browser.run(GIVE_WAY)
    page.browser.click("#in")
    wait_for(lambda: "This page was idle" in page.read()["why"], lambda: f"the page says {page.read()['why']!r}")
    require(page.read()["state"] == "waiting", "a page that gave way doesn't say that it waits")
    page.do(lambda: page.browser.click("#all"))
    wait_until_live(page)
    page.compare()


def rest_unseen(page):
    """A page that nobody sees lets its session go, and begins another one when it is seen."""
    page.open("panel=sea")
    see = "Object.defineProperty(document, 'visibilityState', { value: arguments[0], configurable: true });"
    page.browser.run(see + "document.dispatchEvent(new Event('visibilitychange'))", "hidden")
    wait_for(lambda: page.read()["state"] == "resting", lambda: f"the page says {page.read()['status']}")
    page.request("append sea 321")
    frames = [page.request(f"open {number}") for number in range(1, 17)]
    require(all(frame[4] == 3 for frame in frames), "the session isn't let go")
    for number in range(1, 17):
        page.request(f"close {number}")
    page.do(lambda: page.browser.run(see + "document.dispatchEvent(new Event('visibilitychange'))", "visible"))
    wait_until_live(page)
    require(page.window()[1] == page.end("sea"), "what came in between isn't drawn")
    page.compare()


def fall_behind(page):
    """Where a change isn't drawn within a second the page says so, until it is. Of two panels: a view that is alone is soon followed, and pushed."""
    page.open("panel=few&panel=tide")
    page.browser.run(HOLD)
    page.request("set few 0 5")
    wait_for(lambda: page.read()["state"] == "behind", lambda: f"the page says {page.read()['status']}")
    require(re.fullmatch(r"Behind since \d\d:\d\d:\d\d", page.read()["status"]), f"the page says {page.read()['status']}")
    page.do(lambda: page.browser.run("window.letGo()"))
    wait_until_live(page)
    page.compare()


def draw_pushes(page):
    """Each edit is drawn as it comes, in the panels that show its series."""
    page.open(f"panel=few&panel=sea&from={START}&to={START + 100 * STEP}")
    page.do(lambda: page.browser.type("#line", f"set sea {START + 50 * STEP} 7777"))
    slots = (page.end("sea") - START) // STEP
    wait_for(lambda: page.read()["answer"] == f"done: {slots} slots", lambda: f"an edit is answered by {page.read()['answer']!r}")
    told = page.read()
    require(told["panels"][1]["label"].endswith("to 7777"), f"the corrected value isn't drawn: {told}")
    page.compare()
    drawn = [panel["drawings"] for panel in told["panels"]]
    for value in (9000, -5000, 12):
        page.do(lambda: page.request(f"set sea {START + 51 * STEP} {value}"))
        page.compare()
    now = [panel["drawings"] for panel in page.read()["panels"]]
    require(now[0] == drawn[0] and now[1] >= drawn[1] + 3, f"drawn were {now} behind {drawn}")
    page.browser.type("#line", f"set sea {START + 1} 5")
    wait_for(lambda: page.read()["answer"].startswith("the time is no slot's"), lambda: f"a wrong edit is answered by {page.read()['answer']!r}")
    page.request(f"set sea {START + 51 * STEP} 0")


# What has come isn't read until it is let go.
HOLD_READING = """
const { read } = ReadableStreamDefaultReader.prototype;
const held = new Promise((done) => (window.letGo = done));
ReadableStreamDefaultReader.prototype.read = async function () {
  await held;
  return read.call(this);
};
"""
# The first words of the requests that the page makes from now on, and how it sends them.
COUNT = (
    SEEING
    + """
[window.requests, window.ways] = [[], []];
window.unseen?.();
window.unseen = seeing((body, way) => window.requests.push(body.split(" ")[0]) && window.ways.push(way) && null);
"""
)


def draw_followed(page):
    """Of a view that is alone what changes is pushed, and drawn without being asked for; one that isn't still is asked for anew."""
    browser, requests = page.browser, lambda: page.browser.run("return window.requests")

    def follows(step):
        """Does a step that asks for a view, waits until that is followed, and gives how the page asked."""
        browser.run(COUNT)
        page.do(step)
        wait_for(lambda: requests()[-2:] == ["view", "follow"], lambda: f"the page asks for {requests()}")
        ways = browser.run("return window.ways")
        browser.run(COUNT)
        return set(ways)

    for query in (f"panel=sea&from={START}&to={START + 5000 * STEP}", f"panel=sea&filter=v+%3E+0&range=-900..900&from={START}&to={START + 50 * STEP}"):
        page.open(query)
        follows(lambda: browser.click("#in"))
        for value in (3333, -4444, 55):
            page.do(lambda: page.request(f"set sea {START + 25 * STEP} {value}"))
            page.compare()
        page.request("append sea 1")  # behind the window
        page.request("set few 0 7")
        page.do(lambda: page.request(f"set sea {START + 26 * STEP} 44"))
        page.compare()
        require(requests() == [], f"what is pushed is asked for, too: {requests()}")
        page.request(f"set sea {START + 24 * STEP} 12")
        require(follows(lambda: page.press("-")) == {"sent"}, "requests are posted where there is a WebSocket")
        page.compare_in_the_end()
    # Many pushes wait while the page reads none. (A line between edits has each of them stored and pushed alone.)
    browser.run(HOLD_READING)
    for value in (1, 2):
        page.request("\nlist\n".join(f"set sea {START + slot * STEP} {slot * value}" for slot in range(20, 50)))
    browser.run("window.letGo()")
    wait_for(lambda: "view" in requests(), "what changes too fast to be drawn one by one isn't asked for")
    page.compare_in_the_end()
    page.open("panel=sea&last=3600")
    follows(lambda: browser.click("#in"))
    follows(lambda: browser.click("#resume"))
    follows(lambda: page.request("append sea 2"))  # by which the window moves
    page.compare()
    page.open("panel=sea&panel=tide")
    browser.run(COUNT)
    page.do(lambda: browser.click("#in"))
    page.do(lambda: page.request(f"set sea {START + 25 * STEP} 5"))
    page.compare()
    require("follow" not in requests(), "one of several views is followed")


def follow_end(page):
    """A window stays at the last hour, pauses while somebody looks back, and goes on."""
    page.open("panel=tide&panel=sea&last=3600")
    end = page.end("sea")
    require(page.window() == (end - 3600, end), f"the last hour is {page.window()}")
    page.do(lambda: page.request("append sea 5"))
    require(page.window() == (end + STEP - 3600, end + STEP), f"behind an append the window is {page.window()}")
    page.compare()
    page.do(lambda: page.press(KEYS["left"]))
    back = page.window()
    page.do(lambda: page.request("append sea 6"))
    require(page.window() == back, "the window moves while somebody looks back")
    page.compare()
    page.do(lambda: page.browser.click("#resume"))
    require(page.window()[1] == end + 2 * STEP, f"behind the end again the window is {page.window()}")
    page.compare()
    page.do(lambda: page.browser.choose("#last", "86400"))
    require(page.window()[1] - page.window()[0] >= 86400, "the last day isn't shown")
    page.compare()


def come_slowly(page):
    """Over a slow line an answer is shown by its covers, and then by its picture."""
    end, paces = page.end("sea"), iter((16000, 4000, 1000))  # bytes a second

    def has_come():
        return not page.read()["panels"][0]["covered"] and page.window()[1] == end

    def begin():
        page.browser.send("/chromium/network_conditions", method="DELETE")
        page.open(f"panel=sea&from={START}&to={START + STEP}")
        conditions = {"offline": False, "latency": 0, "download_throughput": next(paces), "upload_throughput": 24000}
        page.browser.send("/chromium/network_conditions", {"network_conditions": conditions})
        page.browser.run("document.querySelector('#all').click()")

    def cover():
        """A cover that is shown; where the whole picture came between two looks, it comes again, more slowly."""
        found = page.cover()
        if not found and has_come():
            begin()
        return found

    try:
        begin()
        if not os.path.exists(browser_page.MODULE):
            return
        covers = []
        wait_for(lambda: covers.append(cover()) or covers[-1], "no cover is shown, and marked as one")
        pbm, count, size = covers[-1]
        lines = ["open 1 131072", *(f"view 1 sea {size[0]} {size[1]} {START} {to} auto" for to in (START + STEP, end))]
        frames = page.program(["serve"], "".join(line + "\n" for line in lines).encode())
        wanted = subprocess.run([PROGRAM, "-", "cover", count], input=frames, stdout=subprocess.PIPE, check=True).stdout
        require(pbm in wanted, f"the canvas isn't the cover after {count} coefficients")
        page.show("cover")
    finally:
        page.browser.send("/chromium/network_conditions", method="DELETE")
    wait_for(has_come, "the picture doesn't follow its covers")
    page.compare()


def wait_for_place(browser, store, folder, screenshots):
    """A seventeenth viewer is told why it has to wait, and begins once another one goes."""
    with served(browser, store, screenshots, "--edit") as (page, _):
        streams = []  # of sixteen viewers that aren't browsers
        for number in range(1, 17):
            page.request(f"open {number}")
            stream = http.client.HTTPConnection(urllib.parse.urlsplit(page.address).netloc)
            stream.request("POST", "/events", str(number), {"X-Chart-Token": page.token})
            streams.append((stream, stream.getresponse()))
        browser.send("/url", {"url": f"{page.address.partition('?')[0]}?panel=sea#{page.fragment}"})
        wait_for(lambda: "Sixteen pages look at this store" in page.read()["why"], "a seventeenth viewer isn't told why")
        require(page.read()["state"] == "waiting", "the page doesn't say that it waits")
        page.show("waiting")
        streams[3][1].close()
        streams[3][0].close()
        wait_for(lambda: page.read()["drawings"] > 0, "a place that is free isn't taken")
        page.compare()


def free_port():
    """A port that nobody listens on, and none of those that the system hands out by itself: these may be taken while there is no server."""
    for port in random.sample(range(20_000, 32_000), 1000):
        with contextlib.suppress(OSError), socket.socket() as one:
            one.bind(("127.0.0.1", port))
            return port
    raise Failed("no port is free")


def lose_line(browser, store, folder, screenshots):
    """A server that is gone is told, since when; one that comes back is used by itself."""
    words = ["--edit", "--token-file", os.path.join(folder, "token"), "--port", str(free_port())]
    with served(browser, store, screenshots, *words) as (page, server):
        page.open("panel=sea&last=3600")
        server.terminate()
        server.wait()
        wait_for(lambda: page.read()["state"] == "cut", lambda: f"the page says {page.read()['status']}")
        require(re.fullmatch(r"Cut off since \d\d:\d\d:\d\d", page.read()["status"]), f"the page says {page.read()['status']}")
        page.show("cut")
        edit(store, "append sea 77")
    with served(browser, store, screenshots, *words) as (page, server):
        wait_until_live(page)
        wait_for(lambda: page.window()[1] == page.end("sea"), "what came in between isn't drawn")
        page.compare()
        end_program(page, server)


def end_program(page, server):
    with open(f"/proc/{server.pid}/task/{server.pid}/children", encoding="ascii") as file:
        child = int(file.read())
    os.kill(child, signal.SIGKILL)
    wait_for(lambda: "the program has ended with status -9" in page.read()["why"], lambda: f"the page says {page.read()['why']!r}")
    require(page.read()["state"] == "ended", "the page doesn't say that it is ended")
    with open(f"/proc/{server.pid}/task/{server.pid}/children", encoding="ascii") as file:
        require(file.read() == "", "another program was started")
    page.show("ended")


def without_module(browser, folder):
    """Without the module the client in JavaScript draws, and the page says so."""
    store = os.path.join(folder, "plain.store")
    make_store(store, SLOTS)
    with served(browser, store, None, "--module", "/nowhere/chart_client.wasm") as (page, _):
        page.open("panel=sea+tide&panel=few")
        said = page.browser.run("const it = document.getElementById('client'); return [it.dataset.proved, it.textContent]")
        require(said == ["false", "Drawn by the client in JavaScript, which isn't proved: its module isn't built."], f"the page says {said}")
        page.compare()
        require(page.browser.run("return document.getElementById('edit').hidden"), "the page asks for edits without --edit")
        browser_axes.see_crosshair(page)


def show_sunspots(browser, folder, screenshots):
    """The pages of README's pictures, by its commands: a real series, and later values as if they came in now."""
    store = os.path.join(folder, "months.store")
    examples = os.path.join(ROOT, "examples")
    for name in ("make_store", "months", "later_months"):
        require(os.path.exists(os.path.join(examples, name)), f"examples/{name} isn't there")
    subprocess.run([os.path.join(examples, "make_store"), store, "2400"], stdout=subprocess.PIPE, check=True)
    browser.size(1000, 560)
    taken, given = os.pipe()
    try:
        with served(browser, store, screenshots, "sunspots", "--feed", stdin=taken) as (page, _):
            page.open("zone=utc")  # the only series is shown at once
            require(page.browser.run("return location.search") == "?panel=sunspots&zone=utc", "the only series isn't shown")
            before = page.window()
            # They come from now on, so that not all of them are there before the page is, however slow it is.
            with subprocess.Popen([os.path.join(examples, "later_months"), "2400", "0.02"], stdout=given, start_new_session=True) as feeder:
                try:
                    wait_for(lambda: page.window()[1] > before[1], "the later months aren't drawn as they come")
                finally:
                    with contextlib.suppress(ProcessLookupError):
                        os.killpg(feeder.pid, signal.SIGTERM)  # all of it, so that nothing more comes
            wait_until_quiet(page)
            page.compare_in_the_end()
            page.show("page")
    finally:
        os.close(taken)
        os.close(given)


def wait_until_quiet(page):
    """Waits until all is drawn that the store has, and nothing more comes to it."""
    seen = []

    def is_quiet():
        seen.append((page.end("sunspots"), page.read()["drawings"]))
        return len(seen) > 4 and len(set(seen[-4:])) == 1 and page.window()[1] == seen[-1][0]

    wait_for(is_quiet, lambda: f"what comes doesn't end, or isn't drawn: {seen[-1]} and the window {page.window()}")


EDITING = (fail_module, give_way, rest_unseen, fall_behind, draw_pushes, draw_followed, follow_end, come_slowly)
