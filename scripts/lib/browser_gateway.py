"""What scripts/gate/browser looks at where a gateway serves the page: many viewers, edits, alarms, and a run that is killed."""
import os
import signal
import subprocess
import sys
import time

import browser_lines
import browser_page
from browser_driver import require, wait_for
from browser_page import PROGRAM, ROOT, Page
from built_program import Failed

sys.path[:0] = [os.path.join(ROOT, "clients/python"), os.path.join(ROOT, "clients/python/tests")]

DEBIANS = "/usr/bin/python3"
FILES = ("one.store", "other.store")
SECTIONS = {"stores": 'files = ["one.store", "other.store"]'}
ALARMS = '[[series]]\nstep = "1s"\nscale = 2\n[[alarm]]\nname = "hot"\nmatch = "sea_v"\nover = 900\n[[alarm]]\nname = "low"\nunder = -900\n'
CROWD = 30
READ_ALARMS = """
const [strip, count] = [document.getElementById("alarms"), document.getElementById("alarm_count")];
const items = [...document.querySelectorAll("#alarm_list li")].map((it) => it.textContent);
const labels = [...document.querySelectorAll("#alarm_list button")].map((it) => it.getAttribute("aria-label"));
return { hidden: strip.hidden, role: count.getAttribute("role"), label: strip.getAttribute("aria-label"), count: count.textContent, items, labels };
"""


class Behind(Page):
    """The page behind a gateway, over its two stores."""

    def __init__(self, browser, gateway, screenshots):
        self.gateway = gateway
        self.stores = {name: os.path.join(gateway.stores, file) for file in FILES for name in names_in(gateway, file)}
        super().__init__(browser, None, screenshots, f"http://127.0.0.1:{gateway.port}/#token=none")

    def wanted(self, number, told, size):
        self.store = self.stores[self.asked()[number]["names"][0]]
        return super().wanted(number, told, size)

    def compare(self):
        """What a write changes in two stores is told in two parts."""
        return self.compare_in_the_end()

    def write(self, lines):
        status, text = self.gateway.write(lines)
        require(status == 204, f"the gateway answers {status}: {text}")

    def alarms(self):
        return self.browser.run(READ_ALARMS)


def names_in(gateway, file):
    with open(os.path.join(gateway.stores, file), "rb") as store:
        copy = store.read()
    path = os.path.join(gateway.folder, "copy")
    with open(path, "wb") as file:
        file.write(copy)
    listed = subprocess.run([PROGRAM, path, "list"], stdout=subprocess.PIPE, check=True).stdout
    return [row.split()[0] for row in listed.decode().splitlines()]


def lines_of(first, values):
    from gateway_server import T

    return "\n".join(f"sea v={value} {T + at}\ntide v={value / 4} {T + at}" for at, value in enumerate(values, first))


def behind_gateway(browser, folder, screenshots):
    """The page behind a gateway draws what `draw` makes, alone and in a crowd, through edits, alarms and the end of a run."""
    import gateway_server

    if subprocess.run([DEBIANS, "-c", "import aiohttp, tomllib"], stderr=subprocess.DEVNULL).returncode:
        print("browser: there is no python3-aiohttp, so the page behind a gateway is passed over", flush=True)
        return
    gateway_server.PYTHON = DEBIANS
    gateway = gateway_server.Gateway(folder, {**SECTIONS, "page": f"module = {browser_page.MODULE!r}".replace("'", '"')}, ALARMS, program=PROGRAM)
    try:
        gateway.start()
        status, text = gateway.write(lines_of(0, browser_page.values_of(6000)))
        require(status == 204, text)
        page = Behind(browser, gateway, screenshots)
        for step in (draw_alone, add_series, draw_in_a_crowd, show_alarms, call_by_labels, outlive_a_run, lose_gateway):
            step(page)
    except AssertionError as why:
        raise Failed(str(why)) from None
    finally:
        gateway.close()


def draw_alone(page):
    page.open("panel=sea_v&panel=tide_v&zone=utc")
    browser_lines.wait_until_live(page)
    page.compare()
    page.do(lambda: page.browser.drag(page.plot(), (0.2, 0.5), (0.6, 0.5)))
    page.compare()
    page.do(lambda: page.write(lines_of(3000, [500, -500, 250])))
    page.do(lambda: page.browser.click("#all"))
    page.compare()
    require(page.alarms()["hidden"], f"alarms are shown where none stand: {page.alarms()}")


def add_series(page):
    """A sum is drawn as `derive` does, also behind writes, where the gateway answers sums; else it isn't offered, and told where it is asked for."""
    page.open("sum=1+sea_v+-3+sea_v&panel=tide_v&sum=1+sea_v+1+tide_v&zone=utc")
    told = page.read()["panels"]
    page.browser.click("#open_picker")
    if page.browser.run("return document.getElementById('add_sum').hidden"):
        require([panel["fault"] for panel in told] == ["this server answers no sums", "", "this server answers no sums"], f"the page says {told}")
        return
    apart = page.stores["sea_v"] != page.stores["tide_v"]
    require(told[2]["fault"] == ("the two series aren't of one store" if apart else ""), f"the page says {told[2]['fault']!r}")
    page.open("sum=1+sea_v+-3+sea_v&panel=tide_v&zone=utc")
    page.compare()
    page.do(lambda: page.write(lines_of(2000, [750, -750, 0.25])))
    page.compare()


def draw_in_a_crowd(page):
    """Thirty others have all sessions; then they go."""
    from gateway_server import T
    from page_viewer import Viewer

    words = [f"{name} {200 + 10 * at} 50 {T} {T + 7000} auto" for name in ("sea_v", "tide_v") for at in range(3)]
    crowd = [Viewer(page.gateway.port, number) for number in range(1, CROWD + 1)]
    try:
        for at, viewer in enumerate(crowd):
            viewer.open()
            viewer.listen().pictures(words[at % 3], words[3 + at % 3])
        page.open("panel=sea_v&panel=tide_v&panel=sea_v&filter=v+%3E+0&zone=utc")
        for turn in range(3):
            page.compare()
            page.do(lambda: page.write(lines_of(6000 + turn, [100 * turn])))
        page.compare()
        page.do(lambda: page.browser.click("#in"))
        page.compare()
    finally:
        for viewer in crowd:
            viewer.close()
    page.do(lambda: page.write(lines_of(5000, [77])))
    page.compare()


def show_alarms(page):
    """An alarm that stands is told in a strip, aloud and by name, and goes when it ends."""
    now, none = int(time.time()), {"hidden": True, "count": "", "items": []}
    page.open("panel=tide_v&zone=utc")
    page.do(lambda: page.write(f"sea v=950.5 {now}\ntide v=3 {now}"))
    wait_for(lambda: not page.alarms()["hidden"], lambda: f"an alarm isn't shown: {page.alarms()}")
    told = page.alarms()
    require((told["role"], told["label"], told["count"]) == ("alert", "Alarms", "1 alarm stands"), f"the strip says {told}")
    require(told["items"][0].startswith("hot sea_v above 900, 950.50, since ") and told["labels"] == ["Show sea_v"], f"the strip says {told}")
    page.show("alarms")
    page.do(lambda: page.browser.click("#alarm_list button"))
    wait_for(lambda: [panel["names"] for panel in page.read()["panels"]] == [["tide_v"], ["sea_v"]], "a click doesn't show the series")
    page.write(f"tide v=-901 {now + 1}")
    wait_for(lambda: page.alarms()["count"] == "2 alarms stand", lambda: f"the strip says {page.alarms()}")
    page.write(f"tide v=0 {now + 2}\nsea v=0 {now + 2}")
    wait_for(lambda: page.alarms()["hidden"], lambda: f"alarms that ended are shown: {page.alarms()}")
    require({key: page.alarms()[key] for key in none} == none, f"the strip says {page.alarms()}")


def outlive_a_run(page):
    """A run that is killed is started again, and the page goes on."""
    for process in page.gateway.children():
        os.kill(process, signal.SIGKILL)
    page.do(lambda: page.write(lines_of(6100, [300])))
    page.do(lambda: page.browser.click("#all"))
    wait_for(lambda: page.read()["state"] == "live", lambda: f"the page says {page.read()['status']}")
    page.compare()


def call_by_labels(page):
    """A series with labels is called by these, in the list and in its panel, and found by them."""
    from gateway_server import T

    page.browser.click("#open_picker")
    page.browser.type("#find", "north", ends="")
    page.write("\n".join(f"lake,site=north\\ shore v={at % 50} {T + at}" for at in range(500)))
    shown = 'lake_v{site="north shore"}'
    listed = "return [...document.querySelectorAll('#rows button.name')].map((it) => it.textContent)"
    wait_for(lambda: page.browser.run(listed) == [shown], lambda: f"found by a label are {page.browser.run(listed)}")
    page.do(lambda: page.browser.click("#rows button.name"))
    names = "return [...document.querySelectorAll('.legend b')].map((it) => it.textContent)"
    require(page.browser.run(names)[-1] == shown, f"the panels' series are {page.browser.run(names)}")
    page.stores.update({name: os.path.join(page.gateway.stores, file) for file in FILES for name in names_in(page.gateway, file)})
    page.compare()


def lose_gateway(page):
    """A gateway that is gone is told, and one that comes back is used; what stood when it went is marked as old."""
    page.write(f"sea v=1000 {int(time.time()) + 60}")  # behind all that was written before, however fast this is
    wait_for(lambda: page.alarms()["count"] == "1 alarm stands", lambda: f"the strip says {page.alarms()}")
    require(page.gateway.stop() == 0, "the gateway doesn't end well")
    wait_for(lambda: page.read()["state"] == "cut", lambda: f"the page says {page.read()['status']}")
    wait_for(lambda: page.alarms()["count"].endswith("as of when the line was cut"), lambda: f"the strip says {page.alarms()}")
    page.gateway.start()
    wait_for(lambda: page.read()["state"] == "live", lambda: f"the page says {page.read()['status']}")
    wait_for(lambda: page.alarms()["count"] == "1 alarm stands", lambda: f"the strip says {page.alarms()}")
    page.do(lambda: page.write(lines_of(6200, [400])))
    page.compare()
