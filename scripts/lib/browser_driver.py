"""A headless Chromium for scripts/gate/browser, by the words of WebDriver, without a library."""
import contextlib
import json
import re
import subprocess
import time
import urllib.error
import urllib.request

from built_program import SECONDS, Failed, require

OPENER = urllib.request.build_opener(urllib.request.ProxyHandler({}))  # what listens here is asked past any proxy
ELEMENT = "element-6066-11e4-a52e-4f735466cecf"  # the name that WebDriver gives to an element
KEYS = {
    "left": "\ue012", "up": "\ue013", "right": "\ue014", "down": "\ue015", "home": "\ue011", "end": "\ue010", "page_down": "\ue00f",
    "escape": "\ue00c", "enter": "\ue007", "shift": "\ue008", "tab": "\ue004", "space": " ",
}  # fmt: skip


def wait_for(holds, text):
    """Waits until something holds; `text` says what is the matter where it never does."""
    end = time.monotonic() + SECONDS
    while not holds():
        require(time.monotonic() < end, text() if callable(text) else text)
        time.sleep(0.02)


class Browser:
    """A headless Chromium."""

    def __init__(self, driver):
        self.base = driver
        words = ["--headless=new", "--no-sandbox", "--disable-gpu", "--disable-dev-shm-usage", "--hide-scrollbars"]
        words += ["--window-size=1160,760"]
        options = {"goog:chromeOptions": {"args": words}}
        self.base += "/session/" + self.send("/session", {"capabilities": {"alwaysMatch": options}})["sessionId"]

    def send(self, path, body=None, method=None):
        data = None if body is None else json.dumps(body).encode()
        request = urllib.request.Request(self.base + path, data, {"Content-Type": "application/json"}, method=method)
        try:
            with OPENER.open(request, timeout=SECONDS) as answer:
                return json.load(answer)["value"]
        except urllib.error.HTTPError as error:
            raise Failed(json.load(error)["value"]["message"].partition("\n")[0]) from None

    def tell(self, command, **words):
        """A command of Chromium's own protocol."""
        return self.send("/goog/cdp/execute", {"cmd": command, "params": words})

    def run(self, script, *arguments):
        return self.send("/execute/sync", {"script": script, "args": arguments})

    def element(self, selector):
        return self.send("/element", {"using": "css selector", "value": selector})[ELEMENT]

    def elements(self, selector):
        return [one[ELEMENT] for one in self.send("/elements", {"using": "css selector", "value": selector})]

    def click(self, selector):
        # Past the axis of times too, which covers what is at the lower edge.
        self.run("document.querySelector(arguments[0])?.scrollIntoView({ block: 'nearest' })", selector)
        self.send(f"/element/{self.element(selector)}/click", {})

    def type(self, selector, text, ends=KEYS["enter"]):
        """Types into a field, which is empty then but where nothing ends what is typed."""
        part = self.element(selector)
        if ends:
            self.send(f"/element/{part}/clear", {})
        self.send(f"/element/{part}/value", {"text": text + ends})

    def choose(self, selector, value):
        self.run(
            "const it = document.querySelector(arguments[0]); it.value = arguments[1]; it.dispatchEvent(new Event('change', { bubbles: true }));",
            selector,
            value,
        )

    def act(self, *actions):
        self.send("/actions", {"actions": actions})
        self.send("/actions", method="DELETE")

    def box(self, selector):
        return self.run("const b = document.querySelector(arguments[0]).getBoundingClientRect(); return [b.left, b.top, b.width, b.height]", selector)

    def drag(self, selector, first, last, keys=()):
        """Drags over an element from one place to another, each a share of its width and of its height."""
        left, top, width, height = self.box(selector)
        place = lambda at: {"x": round(left + at[0] * width), "y": round(top + at[1] * height), "type": "pointerMove", "duration": 0}
        middle = [(one + other) / 2 for one, other in zip(first, last)]
        moves = [place(first), {"type": "pointerDown", "button": 0}, place(middle), place(last), {"type": "pointerUp", "button": 0}]
        pause = {"type": "pause", "duration": 0}
        held = [{"type": "keyDown", "value": key} for key in keys] or [pause]
        freed = [{"type": "keyUp", "value": key} for key in keys] or [pause]
        pauses = [pause] * len(held)
        self.act(
            {"type": "key", "id": "keys", "actions": held + [pause] * len(moves) + freed},
            {"type": "pointer", "id": "mouse", "parameters": {"pointerType": "mouse"}, "actions": pauses + moves + pauses},
        )

    def point(self, x, y):
        move = {"type": "pointerMove", "x": round(x), "y": round(y), "duration": 0}
        self.send("/actions", {"actions": [{"type": "pointer", "id": "mouse", "parameters": {"pointerType": "mouse"}, "actions": [move]}]})

    def wheel(self, selector, share, turns):
        left, top, width, height = self.box(selector)
        place = {"x": round(left + share * width), "y": round(top + height / 2)}
        turn = {"type": "scroll", "duration": 0, "deltaX": 0, "deltaY": turns, "origin": "viewport", **place}
        self.act({"type": "wheel", "id": "wheel", "actions": [turn]})

    def press(self, *keys):
        """Presses keys together, in what has the focus."""
        downs = [{"type": "keyDown", "value": key} for key in keys]
        self.act({"type": "key", "id": "keys", "actions": downs + [{"type": "keyUp", "value": key} for key in reversed(keys)]})

    def theme(self, name):
        self.tell("Emulation.setEmulatedMedia", features=[{"name": "prefers-color-scheme", "value": name}])

    def size(self, width, height, scale=1):
        """Makes the page so many lengths wide and high, each of so many pixels."""
        self.tell("Emulation.setDeviceMetricsOverride", width=width, height=height, deviceScaleFactor=scale, mobile=False)


@contextlib.contextmanager
def started(words, **pipes):
    """A program that runs within this, and what it says on standard output."""
    with subprocess.Popen(words, stdout=subprocess.PIPE, text=True, **pipes) as program:
        try:
            yield program
        finally:
            program.terminate()


@contextlib.contextmanager
def driver():
    with started(["chromedriver", "--port=0"]) as program:
        for line in program.stdout:
            found = re.search(r"started successfully on port (\d+)", line)
            if found:
                yield f"http://127.0.0.1:{found[1]}"
                return
    raise Failed("chromedriver doesn't start")
