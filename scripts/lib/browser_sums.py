"""What scripts/gate/browser looks at where a panel shows the sum of two series: its pixels are those of `derive`."""
import itertools

from browser_driver import KEYS, Failed, require, wait_for
from browser_looks import names_shown, set_range
from browser_page import START, STEP

SLOW = 10 * STEP  # the step of `tide` and `wind`
OWN = "#panels [name=factor]"


def labels(page):
    return page.browser.run("return [...document.querySelectorAll('.legend li')].map((it) => it.querySelector('b').textContent)")


def choose_sum(page):
    """Two series that are chosen in the list are shown as their sum and as their difference, in panels that the address names."""
    page.open("panel=sea+tide")
    for button, title, words in (("add_difference", "tide − wind", "sum=1+tide+-1+wind"), ("add_sum", "wind + tide", "sum=1+wind+1+tide")):
        page.browser.click("#open_picker")
        page.browser.run("const it = document.getElementById('find'); it.value = ''; it.dispatchEvent(new Event('input'));")
        order = ["tide", "wind"] if button == "add_difference" else ["wind", "tide"]
        require(page.browser.run("return document.getElementById(arguments[0]).disabled", button), "a sum of no series is offered")
        for name in order:
            page.browser.click(f"input[aria-label='Choose {name}']")
        page.do(lambda: page.browser.click(f"#{button}"))
        require(labels(page)[-1] == title, f"the panels are called {labels(page)}")
        require(page.browser.run("return location.search").endswith(words), f"the address is {page.browser.run('return location.search')}")
        black, width, _ = page.compare()
        require(black > width, f"{black} black pixels")
    page.do(lambda: page.browser.send("/refresh", {}), is_new=True)
    require(labels(page) == ["sea", "tide", "tide − wind", "wind + tide"], f"behind a reload there are {labels(page)}")
    page.compare()
    page.show("panels")


def readings(page, name):
    """The stored values of a series, as whole numbers, by their times."""
    _, *rows = page.program(["export", name]).decode().splitlines()
    return {int(time): int(value.replace(".", "")) for time, value in (row.split(",") for row in rows)}


def see_values_of_sum(page):
    """The line at the pointer tells of a sum the least and the greatest value of its column, in the decimals of the finer series."""
    page.open(f"sum=2+tide+-3+wind&from={START}&to={START + 2000 * SLOW}&zone=utc")
    told, (columns, _) = page.read()["panels"][0], page.canvas(0)[1]
    t0, t1 = int(told["t0"]), int(told["t1"])
    one, other = readings(page, "tide"), readings(page, "wind")
    spelled = lambda value: f"{'−' if value < 0 else ''}{abs(value) // 100}.{abs(value) % 100:02}"
    for column in (0, columns // 2, columns - 1):
        page.browser.run("document.querySelector('.plot').focus()")
        page.browser.press(KEYS["shift"], KEYS["home"])
        left, top, _, height = page.browser.box(page.plot())
        page.browser.point(left + column + 0.4, top + height / 2)
        inside = [20 * one[time] - 3 * other[time] for time in one.keys() & other.keys() if t0 <= time < t1 and (time - t0) * columns // (t1 - t0) == column]
        wanted = " to ".join(dict.fromkeys(spelled(end) for end in (min(inside), max(inside)))) if inside else "–"
        require(page.read()["panels"][0]["values"] == [wanted], f"column {column} is told as {page.read()['panels'][0]['values']}, and has {wanted}")
    require(" values from " in told["label"] and told["label"].startswith("2 tide − 3 wind from "), f"the chart is told as {told['label']!r}")


def add_by_keys(page):
    """From the list to a sum and its factors, by the keyboard alone."""
    page.open("panel=few")
    active = "const it = document.activeElement; return it.getAttribute('aria-label') ?? it.id"

    def go_to(name, *held):
        for _ in range(60):
            if page.browser.run(active) == name:
                return
            page.browser.press(*held, KEYS["tab"])
        raise Failed(f"Tab doesn't reach {name}, but {page.browser.run(active)}")

    go_to("open_picker")
    page.browser.press(KEYS["enter"])
    for name in ("Choose tide", "Choose wind"):
        go_to(name)
        page.browser.press(KEYS["space"])
    go_to("add_difference", KEYS["shift"])
    page.do(lambda: page.browser.press(KEYS["enter"]))
    require(labels(page) == ["few", "tide − wind"], f"by keys there are {labels(page)}")
    go_to("Settings of panel 2")
    page.browser.press(KEYS["enter"])
    require(page.browser.run("return document.activeElement.name") == "factor", "the settings don't have the focus")
    page.browser.press("5")
    page.do(lambda: page.browser.press(KEYS["enter"]))
    page.compare()
    require("5" in labels(page)[1], f"by keys there are {labels(page)}")


def change_sum(page):
    """Its factors and its range are set, its window is dragged, and a factor that is none is told."""
    page.open("sum=1+tide+1+wind&panel=tide")
    page.do(lambda: page.browser.drag(page.plot(), (0.2, 0.5), (0.7, 0.5)))
    page.compare()
    page.do(lambda: set_range(page, 0, "-50..250.25"))
    ticks = [text for text, _ in page.read()["panels"][0]["ticks"]]
    require(all(text[-3] == "." for text in ticks), f"the ticks are {ticks}")
    page.compare()
    page.browser.click("[aria-label='Settings of panel 1']")
    page.browser.type(OWN, "1.5")
    wait_for(lambda: "a factor is a whole number" in page.read()["panels"][0]["fault"], "a factor that is none isn't told")
    page.do(lambda: page.browser.type(OWN, "-2"))
    require(labels(page)[0] == "− 2 tide + wind", f"the panels are called {labels(page)}")
    page.compare()
    page.do(lambda: set_range(page, 0, "auto"))
    page.compare()
    page.do(lambda: page.browser.send("/back", {}))
    page.compare()
    page.browser.size(360, 740)
    wait_for(lambda: page.has_drawn() and page.canvas(0)[1][0] < 330, "a narrow page isn't drawn anew")
    page.do(lambda: page.browser.theme("dark"))
    page.compare()
    page.do(lambda: page.browser.theme("light"))
    page.browser.size(1160, 760)


def follow_sum(page):
    """A sum is asked for anew when either of its series changes, and stays at the end with its window; other changes leave it."""
    page.open("sum=1+tide+-1+wind&panel=few&last=864000")
    end = page.end("tide")
    for name, at in itertools.product(("tide", "wind"), (end - 5 * SLOW, end)):
        page.do(lambda: page.request(f"set {name} {at} {9000 if at < end else 50}"))
        page.compare()
    require(page.window()[1] >= end + SLOW, f"behind an append the window is {page.window()}")
    drawn = page.read()["panels"][0]["drawings"]
    page.open("sum=1+tide+-1+wind&panel=few&from={}&to={}".format(*page.window()))
    drawn = page.read()["panels"][0]["drawings"]
    page.do(lambda: page.request("set few 0 6"))
    require(page.read()["panels"][0]["drawings"] == drawn, "a sum is drawn anew where neither of its series changed")
    page.do(lambda: page.request(f"set wind {end} 70"))
    require(page.read()["panels"][0]["drawings"] == drawn + 1, "a sum isn't drawn anew where one of its series changed")
    page.compare()


def refuse_sum(page):
    """Why a sum is refused is told in its panel, in words; the others are drawn."""
    page.request("create huge 1672531200 600 0")
    page.request("set huge 1672531200 600000000000000000")
    cases = {
        "1 sea 1 tide": "the steps of the two series differ, or their starts by no multiple of the step",
        "1 huge 1 huge": "a sum in the window is more than 10^18 in size",
        "1 tide 1 nothing": "no series has the name nothing",
        "1000000000 tide 1 wind": "with 2 decimals a factor is more than 10^9",
        "-1 huge 1 huge": "",
    }
    page.open("&".join(f"sum={words.replace(' ', '+')}" for words in cases) + "&panel=tide")
    told = [panel["fault"] for panel in page.read()["panels"]]
    require(told == [*cases.values(), ""], f"the page says {told}")
    require(names_shown(page)[-1] == ["tide"] and page.read()["panels"][-1]["drawings"] > 0, "a series beside them isn't drawn")
    page.open("sum=-1+huge+1+huge&panel=tide")
    page.compare()


STEPS = (choose_sum, see_values_of_sum, add_by_keys, change_sum, follow_sum, refuse_sum)
