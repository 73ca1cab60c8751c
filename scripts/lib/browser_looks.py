"""What scripts/gate/browser looks at where nothing changes: the list, panels, windows, keys, sizes and colours."""
import itertools
import os

from browser_driver import KEYS, require, wait_for
from browser_page import SLOTS, START, STEP, WHOLE, values_of
import browser_axes
import browser_page

PART = f"from={START + 123456}&to={START + 654321}"  # of a window


def names_shown(page):
    return [panel["names"] for panel in page.read()["panels"]]


def rows(page):
    return page.browser.run("return [...document.querySelectorAll('#rows tr')].map((row) => [...row.cells].slice(1).map((it) => it.textContent))")


def list_series(page):
    """Nothing is named, so the series are listed, with the last value of each; a click on a name shows it."""
    page.browser.send("/url", {"url": f"{page.address}#{page.fragment}".replace("##", "#")})
    wait_for(lambda: len(rows(page)) == 4 and all(row[3] for row in rows(page)), lambda: f"the list isn't whole: {rows(page)}")
    values = values_of(SLOTS)
    wanted = {"few": ["10", "5", "9"], "sea": ["1 minute", f"{SLOTS:,}", str(values[-1]).replace("-", "−")]}
    for name, cells in wanted.items():
        got = next(row for row in rows(page) if row[0] == name)[1:]
        require(name == "few" or got == cells, f"{name} is listed with {got}")
    page.show("list")
    page.browser.type("#find", "ea", ends="")
    wait_for(lambda: [row[0] for row in rows(page)] == ["sea"], "typing doesn't find a series")
    page.do(lambda: page.browser.click("#rows .name"))
    require(names_shown(page) == [["sea"]] and page.window() == WHOLE, f"a click on a name shows {page.read()}")
    black, width, height = page.compare()
    require(black > width and width > 800 and height > 200, f"{black} black pixels on {width} by {height}")


def choose_several(page):
    page.open("panel=sea")
    page.browser.click("#open_picker")
    page.browser.run("const it = document.getElementById('find'); it.value = ''; it.dispatchEvent(new Event('input'));")
    for name in ("tide", "wind"):
        page.browser.click(f"input[aria-label='Choose {name}']")
    require(page.read()["chosen"] == "2 chosen", f"the list says {page.read()['chosen']!r}")
    page.do(lambda: page.browser.click("#add_each"))
    require(names_shown(page) == [["sea"], ["tide"], ["wind"]], f"shown are {names_shown(page)}")
    page.compare()
    page.browser.click("#open_picker")
    for name in ("sea", "tide"):
        page.browser.click(f"input[aria-label='Choose {name}']")
    page.do(lambda: page.browser.click("#add_one"))
    require(names_shown(page)[3] == ["sea", "tide"], f"shown are {names_shown(page)}")
    page.compare()


def arrange_panels(page):
    page.open("panel=sea&panel=tide&panel=wind&panel=sea+tide")
    page.do(lambda: page.browser.click("[aria-label='Move up panel 4']"))
    require(names_shown(page) == [["sea"], ["tide"], ["sea", "tide"], ["wind"]], f"moved up, there are {names_shown(page)}")
    page.do(lambda: page.browser.click("[aria-label='Move down panel 1']"))
    page.do(lambda: page.browser.click("[aria-label='Remove panel 4']"))
    require(names_shown(page) == [["tide"], ["sea"], ["sea", "tide"]], f"there are {names_shown(page)}")
    page.do(lambda: page.browser.run("document.querySelector('[aria-label=\"Take sea away\"]').click()"))
    require(names_shown(page) == [["tide"], ["sea", "tide"]], f"without its series a panel stays: {names_shown(page)}")
    page.do(lambda: page.browser.run("document.querySelectorAll('.panel')[1].querySelector('.drop').click()"))
    require(names_shown(page) == [["tide"], ["tide"]], f"there are {names_shown(page)}")
    _, height = page.canvas(0)[1]
    more = lambda: page.canvas(0)[1][1] - height
    page.browser.drag(".panel:nth-of-type(1) .grip", (0.5, 0.5), (0.5, 5.5))
    # (while the grip is dragged, the panel may be drawn in between)
    wait_for(lambda: 40 <= more() <= 60 and page.has_drawn(), lambda: f"dragged, the panel is {more()} pixels higher")
    dragged = more()
    page.browser.run("document.querySelector('.grip').focus()")
    page.browser.press(KEYS["up"])
    wait_for(lambda: more() == dragged - 20 and page.has_drawn(), lambda: f"by the arrow key it is {more()} higher, and was {dragged}")
    page.compare()


def fill_page(page):
    """Eight panels of four series each; of those in a panel the last one is told to be on top. There is no room for a ninth."""
    page.open("&".join("panel=" + "+".join(names) for names in itertools.islice(itertools.permutations(("sea", "tide", "wind", "few")), 0, 24, 3)) + "&zone=utc")
    page.compare()
    told = page.read()["panels"]
    require(len(told) == 8 and all(sorted(panel["names"]) == ["few", "sea", "tide", "wind"] for panel in told), f"there are {names_shown(page)}")
    tops = "return [...document.querySelectorAll('.panel')].map((it) => [...it.querySelectorAll('.legend small')].map((top) => [top.textContent, top.parentElement.querySelector('b').textContent]))"
    require(page.browser.run(tops) == [[["on top", panel["names"][-1]]] for panel in told], f"on top are {page.browser.run(tops)}")
    inks = "return [...document.querySelectorAll('.panel:first-child .legend li')].map((it) => getComputedStyle(it, '::before').backgroundColor)"
    require(len(set(page.browser.run(inks))) == 4, f"the colours are {page.browser.run(inks)}")
    page.browser.click("#open_picker")
    page.browser.click("#rows .name")
    wait_for(lambda: page.read()["chosen"] == "There is room for 8 panels, and these would be 9.", lambda: f"the list says {page.read()['chosen']!r}")
    page.browser.press(KEYS["escape"])
    require(page.browser.run("return document.getElementById('picker').hidden"), "Escape doesn't close the list")


def set_range(page, number, text):
    page.browser.click(f"[aria-label='Settings of panel {number + 1}']")
    page.browser.type(f".panel:nth-of-type({number + 1}) [name=range]", text)


def fix_range(page):
    page.open("panel=sea&panel=tide")
    page.do(lambda: set_range(page, 1, "-20..55.5"))
    ticks = [text for text, _ in page.read()["panels"][1]["ticks"]]
    require(ticks[0] == "−20.0" and "0.0" in ticks and browser_axes.number_in(ticks[-1]) > 30, f"the ticks are {ticks}")
    page.compare()
    set_range(page, 1, "5..1")
    wait_for(lambda: "the range is auto, or two values" in page.read()["panels"][1]["fault"], "a range that is none isn't told")
    page.do(lambda: set_range(page, 1, "auto"))
    page.compare()


def share_a_link(page):
    """The same address in a page that begins anew shows the same."""
    page.open(f"panel=tide&range=-20..55.5&height=150&panel=sea+tide&filter=v+%3E+0&{PART}&zone=utc")
    before = page.read()
    page.do(lambda: page.browser.send("/refresh", {}), is_new=True)
    after = page.read()
    same = lambda told: [(panel["names"], panel["t0"], panel["t1"], panel["label"], panel["ticks"]) for panel in told["panels"]]
    require(same(before) == same(after), f"a reload shows {same(after)} for {same(before)}")
    page.compare()


def name_client(page):
    """The page says by which client it draws: the proved one, where its module is there."""
    page.open("panel=sea")
    has_module = os.path.exists(browser_page.MODULE)
    said = page.browser.run("const it = document.getElementById('client'); return [it.dataset.proved, it.textContent]")
    wanted = "Drawn by the proved client" if has_module else "Drawn by the client in JavaScript, which isn't proved: its module isn't built."
    require(said[0] == str(has_module).lower() and said[1].startswith(wanted), f"the page says {said}")


def drag_zoom(page):
    page.open("panel=sea")
    page.do(lambda: page.browser.drag(page.plot(), (0.25, 0.5), (0.5, 0.5)))
    t0, t1 = page.window()
    length = STEP * SLOTS
    require(abs(t0 - START - length / 4) < length / 100 and abs(t1 - START - length / 2) < length / 100, f"the window is {t0} to {t1}")
    page.compare()
    page.do(lambda: page.browser.drag(page.plot(), (0.8, 0.5), (0.3, 0.5)))
    require(t0 < page.window()[0] < page.window()[1] < t1, "a drag to the left doesn't zoom")
    require(page.browser.run("return document.querySelector('.selection').hidden"), "what was selected stays marked")
    page.compare()


def pan(page):
    page.open(f"panel=sea&{PART}")
    t0, t1 = page.window()
    page.do(lambda: page.press(KEYS["right"]))
    by = page.window()[0] - t0
    require(by == (t1 - t0) // 4 and page.window()[1] - t1 == by, "the right arrow doesn't pan by a quarter")
    page.compare()
    page.do(lambda: page.press(KEYS["left"]))
    require(page.window() == (t0, t1), "the left arrow doesn't pan back")
    page.do(lambda: page.browser.drag(page.plot(), (0.5, 0.5), (0.25, 0.5), [KEYS["shift"]]))
    require(abs(page.window()[0] - t0 - (t1 - t0) / 4) < (t1 - t0) / 100, "a drag with Shift doesn't pan")
    moved = "return document.querySelector('.plot').style.getPropertyValue('--moved')"
    require(page.browser.run(moved) == "", "the picture stays moved behind a drag with Shift")
    page.compare()


def turn_wheel(page):
    page.open(f"panel=sea&{PART}")
    t0, t1 = page.window()
    page.do(lambda: page.browser.wheel(page.plot(), 0.25, -200))
    first, last = page.window()
    require(abs((last - first) * 2 - (t1 - t0)) <= 2, "the wheel doesn't zoom")
    require(abs((3 * first + last) - (3 * t0 + t1)) <= (t1 - t0) / 100, "the wheel doesn't zoom at the pointer")
    page.do(lambda: page.press("-"))
    require(abs(sum(page.window()) - (first + last)) <= 2, "the key - doesn't zoom out around the middle")
    page.do(lambda: page.press("+"))
    page.compare()


def go_back(page):
    page.open(f"panel=sea&{PART}")
    now = page.window()
    page.do(lambda: page.press("+"))
    page.do(lambda: page.browser.send("/back", {}))
    require(page.window() == now, "Back doesn't show the window before")
    page.do(lambda: page.browser.click("#forward"))
    require(page.window() != now, "Forward doesn't show the window behind")
    page.do(lambda: page.browser.click("#back"))
    page.compare()
    page.do(lambda: page.press(KEYS["home"]))
    require(page.window() == WHOLE, "Home doesn't show the whole series")
    page.do(lambda: page.browser.run("['in', 'in', 'in', 'back'].forEach((id) => document.getElementById(id).click())"))
    quarter = lambda: abs(4 * (page.window()[1] - page.window()[0]) - STEP * SLOTS) < 2 * STEP
    wait_for(quarter, lambda: f"three steps at once, and one back, show {page.window()}")
    page.compare_in_the_end()


def name_window(page):
    """A window by dates, and what is no window."""
    page.open("panel=sea")
    page.browser.run("document.getElementById('more').open = true")
    page.do(lambda: page.browser.choose("#zone", "utc"))
    page.browser.type("#from", "2023-01-02", ends="")
    page.do(lambda: [page.browser.type("#from", "2023-01-02 06:00", ends=" "), page.browser.type("#to", "2023-01-03")])
    require(page.window() == (START + 30 * 3600, START + 48 * 3600), f"the window is {page.window()}")
    page.browser.type("#to", "tomorrow")
    wait_for(lambda: "two times" in page.read()["window_fault"], "a time that is none isn't told")
    page.browser.run("document.getElementById('more').open = false")


def set_filter(page, text):
    page.browser.type(".panel [name=filter]", text)


def type_filter(page):
    page.open("panel=sea")
    page.browser.click("[aria-label='Settings of panel 1']")
    page.do(lambda: set_filter(page, "v > 0 and not v > 2000"))
    page.compare()
    page.browser.click("[aria-label='Settings of panel 1']")
    before = page.canvas(0)
    for text, at in (("v > 0 and w", 10), ("é v", 0), ("v >", 3)):
        set_filter(page, text)
        wait_for(
            lambda: f"{text}\n{' ' * at}^" in page.read()["panels"][0]["fault"],
            lambda: f"the mark doesn't stand under character {at} of {text!r}: {page.read()['panels'][0]['fault']!r}",
        )
        page.browser.click("[aria-label='Settings of panel 1']")
    page.browser.run("history.replaceState(null, '', `?panel=sea&filter=${'v > 0 and '.repeat(900)}v > 0${location.hash}`); location.reload()")
    wait_for(lambda: any("each of 1 to 8192 bytes" in panel["fault"] for panel in page.read()["panels"]), "a filter that no request has room for isn't told")
    page.browser.click("[aria-label='Settings of panel 1']")
    page.do(lambda: set_filter(page, ""))
    require(page.read()["panels"][0]["fault"] == "" and page.canvas(0) != before, "the fault stays")
    page.compare()


def resize(page):
    page.open("panel=sea")
    page.browser.size(700, 560)
    wait_for(lambda: page.has_drawn() and page.canvas(0)[1][0] < 640, "a smaller page isn't drawn anew")
    page.compare()
    page.browser.size(360, 740)
    wait_for(lambda: page.has_drawn() and page.canvas(0)[1][0] < 330, "a narrow page isn't drawn anew")
    page.compare()
    over = page.browser.run("return document.documentElement.scrollWidth")
    require(over <= 360, f"the page is {over} pixels wide where there are 360")
    page.show("narrow")
    page.browser.size(700, 560, 1.5)
    wait_for(lambda: page.has_drawn() and page.canvas(0)[1][0] > 800, "a page of finer pixels isn't drawn anew")
    width, shown = page.canvas(0)[1][0], page.browser.box("canvas")[2]
    require(abs(width / 1.5 - shown) < 0.02, f"{width} pixels of a chart take {shown} of the screen's lengths")
    page.compare()
    page.browser.size(1160, 760)
    wait_for(lambda: page.has_drawn() and page.canvas(0)[1][0] > 900, "a wide page isn't drawn anew")
    page.compare()


def darken(page):
    page.open("panel=sea+tide+wind")
    page.do(lambda: page.browser.theme("dark"))
    page.compare()
    page.do(lambda: page.browser.theme("light"))
    page.compare()


def go_by_keys(page):
    """From nothing to a chart that is moved, by the keyboard alone."""
    page.browser.send("/url", {"url": "about:blank"})
    page.browser.send("/url", {"url": f"{page.address.partition('?')[0]}#{page.fragment}"})
    wait_for(lambda: len(rows(page)) == 4, "the list isn't shown")
    active = lambda: page.browser.run("return document.activeElement.textContent + document.activeElement.className")
    for _ in range(40):
        if active().startswith("sea"):
            break
        page.browser.press(KEYS["tab"])
    require(active().startswith("sea"), "Tab doesn't reach the name of a series")
    page.do(lambda: page.browser.press(KEYS["enter"]))
    for _ in range(40):
        if active().endswith("plot"):
            break
        page.browser.press(KEYS["tab"])
    require(active().endswith("plot"), "Tab doesn't reach the chart")
    page.do(lambda: page.browser.press("+"))
    page.compare()
    require(page.read()["aloud"].startswith("sea from 2023-01-"), f"what is shown isn't told: {page.read()['aloud']!r}")


def name_nothing(page):
    """A series that isn't there is told in its panel; the others are drawn."""
    page.open("panel=nothing+sea&panel=sea")
    told = page.read()["panels"]
    require(told[0]["fault"] == "no series has the name nothing" and told[1]["fault"] == "", f"the page says {told}")
    require(told[0]["drawings"] == 0 and told[1]["drawings"] > 0, f"drawn were {told}")
    page.open("panel=nothing")
    require(page.read()["panels"][0]["fault"] == "no series has the name nothing", "a series that isn't there isn't told")


def name_parts(page):
    """What a screen reader tells: each thing that can be used has a role and a name."""
    page.open("panel=sea+tide&panel=few&sum=1+tide+-1+wind")
    browser = page.browser
    browser.run("document.querySelectorAll('details').forEach((it) => (it.open = true))")
    wanted = {".plot": "img", ".grip": "separator", "#open_picker": "button", "#last": "combobox", "#from": "textbox", ".panel": "region"}
    for selector, role in wanted.items():
        element = browser.element(selector)
        got = browser.send(f"/element/{element}/computedrole")
        require(got in (role, "image") if role == "img" else got == role, f"{selector} has the role {got}")
    browser.run("document.querySelectorAll('[hidden]').forEach((it) => (it.hidden = false))")
    for element in browser.elements("button, input, select, .plot, .grip, .panel"):
        name = browser.send(f"/element/{element}/computedlabel")
        shown = browser.run("return arguments[0].outerHTML.slice(0, 80)", {"element-6066-11e4-a52e-4f735466cecf": element})
        require(name.strip(), f"{shown} has no name")
    for panel, front in zip(page.read()["panels"], ("sea and tide from ", "few from ", "tide − wind from ")):
        require(panel["label"].startswith(front) and ": values from " in panel["label"], f"the chart is told as {panel['label']!r}")


STEPS = (
    list_series, choose_several, arrange_panels, fill_page, fix_range, share_a_link, name_client, *browser_axes.STEPS, drag_zoom, pan, turn_wheel,
    go_back, name_window, type_filter, resize, darken, go_by_keys, name_nothing, name_parts,
)  # fmt: skip
