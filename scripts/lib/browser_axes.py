"""What scripts/gate/browser looks at around the charts: ticks of values and times, grid lines, texts that fit, and the crosshair."""
import re

from browser_driver import KEYS, require
from browser_page import SLOTS, START, STEP, WHOLE, values_of


def number_in(text):
    return float(text.replace("−", "-"))


def see_axes(page):
    """Each tick stands at the row or the column of its value or time."""
    page.open("panel=tide&panel=sea&zone=utc")
    told = page.read()
    for number, panel in enumerate(told["panels"]):
        _, (width, height) = page.canvas(number)
        lo, hi = (number_in(end) for end in re.search(r"values from (\S+) to (\S+)$", panel["label"]).groups())
        require(len(panel["ticks"]) >= 3, f"the ticks are {panel['ticks']}")
        for text, top in panel["ticks"]:
            row = int((number_in(text) - lo) * (height - 1) / (hi - lo) + 1e-9)
            require(abs(top - (height - 1 - row + 0.5)) < 0.02, f"the tick {text} of {lo} to {hi} stands at {top} of {height}")
        require(re.fullmatch(r"−?\d+\.\d" if number == 0 else r"−?\d+", panel["ticks"][0][0]), "a tick hasn't the decimals of its series")
    days = [text for text, _ in told["times"]]
    require(days == ["2023"] + [f"{day} Jan" for day in range(3, 22, 2)] or len(days) >= 3, f"the times are {days}")
    for text, left in told["times"]:
        day = 1 if text == "2023" else int(text.split()[0])
        column = (day - 1) * 86400 * width // (WHOLE[1] - WHOLE[0])
        require(abs(left - column - 0.5) < 0.02, f"the time {text} stands at {left} of {width}")
    require(told["t0"] == "2023-01-01 00:00:00 UTC" and told["t1"] == "2023-01-21 20:00:00 UTC", f"the ends are {told['t0']} and {told['t1']}")
    before = page.canvas(0)
    require(told["panels"][0]["lines"] == len(told["panels"][0]["ticks"]) + len(told["times"]), "the grid isn't whole")
    page.do(lambda: page.browser.choose("#grid", "off"))
    require(page.read()["panels"][0]["lines"] == 0, "the grid can't be turned off")
    require(page.canvas(0) == before, "the grid touches a pixel of the chart")
    page.do(lambda: page.browser.choose("#grid", ""))


def see_zone(page):
    """Dates are those of the viewer's zone, or of UTC, and a zone's ticks stand at its own midnights."""
    page.browser.tell("Emulation.setTimezoneOverride", timezoneId="Asia/Kathmandu")  # 5 h 45 min before UTC
    try:
        page.open(f"panel=sea&from={START}&to={START + 4 * 86400}")
        told = page.read()
        require(told["t0"] == "2023-01-01 05:45:00", f"in Kathmandu the window begins at {told['t0']}")
        days = [(text, left) for text, left in told["times"] if " Jan" in text]
        _, (width, _) = page.canvas(0)
        require(len(days) >= 3, f"the times are {told['times']}")
        for text, left in days:
            column = ((int(text.split()[0]) - 1) * 86400 - 5 * 3600 - 45 * 60) * width // (4 * 86400)
            require(abs(left - column - 0.5) < 0.02, f"the midnight of {text} stands at {left} of {width}")
        page.do(lambda: page.browser.choose("#zone", "utc"))
        require(page.read()["t0"] == "2023-01-01 00:00:00 UTC", f"in UTC the window begins at {page.read()['t0']}")
        page.compare()
    finally:
        page.browser.tell("Emulation.setTimezoneOverride", timezoneId="")


# The texts beside the charts and below them that pass the panel's edge or the page's, and the left edges of charts and axis.
READ_EDGES = """
const box = (it) => it.getBoundingClientRect();
const values = [...document.querySelectorAll(".values span")].filter((it) => box(it).left < box(it.closest(".panel")).left);
const times = [...document.querySelectorAll("#times span")].filter((it) => box(it).right > box(document.getElementById("panels")).right);
const lefts = [...document.querySelectorAll(".plot, #times")].map((it) => box(it).left);
return [[...values, ...times].map((it) => it.textContent), [...new Set(lefts)], box(document.getElementById("axis")).bottom, innerHeight];
"""


def fit_texts(page):
    """Long values have room beside the charts, times don't pass the edge, and the axis stays in sight; on a narrow page too."""
    for width in (1160, 360):
        page.browser.size(width, 760)
        # (the window ends at a tick)
        for query in ("panel=sea&range=-123456789..987654321", "panel=sea&panel=tide&panel=wind&panel=sea+tide+wind"):
            page.open(f"{query}&panel=tide&from={START}&to={START + 86401}&zone=utc")
            texts, lefts, bottom, height = page.browser.run(READ_EDGES)
            require(not texts, f"on {width} pixels {texts} pass the edge")
            require(len(lefts) == 1, f"on {width} pixels the charts and the axis begin at {lefts}")
            require(bottom <= height, f"on {width} by {height} pixels the axis ends at {bottom}")
            page.compare()
    page.browser.size(1160, 760)


def column_values(column, width, window=WHOLE):
    """What the readings of `sea` have in a column."""
    t0, t1 = window
    times = [START + STEP * slot for slot in range(SLOTS)]
    values = values_of(SLOTS)
    return [value for time, value in zip(times, values) if t0 <= time < t1 and (time - t0) * width // (t1 - t0) == column]


def see_crosshair(page):
    """At the pointer, and by keys, the least and the greatest value of the column are told, exactly."""
    page.open("panel=sea&panel=tide&zone=utc")
    if not page.browser.run("return document.querySelector('canvas') !== null"):
        return
    left, top, width, height = page.browser.box(page.plot())
    _, (columns, _) = page.canvas(0)
    for column in (0, 333, columns - 1):
        page.browser.point(left + column + 0.4, top + height / 2)
        told = page.read()["panels"][0]["values"][0]
        require(told, f"no values of column {column} are told")
        inside = column_values(column, columns)
        wanted = [str(end).replace("-", "−") for end in (min(inside), max(inside))]
        require(told == " to ".join(wanted), f"column {column} is told as {told}, and has {wanted}")
    require(page.read()["moment"].endswith("2023-01-21 19:59:59 UTC"), f"the time is told as {page.read()['moment']}")
    page.browser.press(KEYS["escape"])
    page.press(KEYS["shift"], KEYS["home"])
    page.press(KEYS["shift"], KEYS["right"])
    inside = column_values(1, columns)
    said = page.read()["aloud"]
    told = f"sea {min(inside)} to {max(inside)}".replace("-", "−")
    require(told in said and said.startswith("2023-01-01 00:"), f"by keys it is told as {said!r}")
    page.show("crosshair")
    page.press(KEYS["escape"])
    require(page.read()["moment"] == "", "Escape doesn't take the line away")


STEPS = (see_axes, see_zone, fit_texts, see_crosshair)
