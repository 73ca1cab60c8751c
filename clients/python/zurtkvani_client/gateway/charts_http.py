"""Pictures by address: /chart/NAME.png and /chart/NAME.svg, the latter with axes. Each pixel is what all stored values give."""
import asyncio

from aiohttp import web

from ..timestamps import UNITS
from ..unfit import Unfit
from ..values import of_real
from . import child, promql
from .evaluating import select
from .labels import text_of
from .prometheus_http import time_of

WIDTH, HEIGHT, MOST = 1000, 300, 4096
UNIT_NAMES = {size: name for name, size in UNITS.items()}


def number(request, name, default):
    text = request.query.get(name, str(default))
    if not text.isascii() or not text.isdigit() or len(text) > 4 or not 1 <= int(text) <= MOST:
        raise promql.Wrong(f"{name} is a whole number from 1 to {MOST:,}")
    return int(text)


def one_series(gateway, name):
    """The series that a name means: that of a store's, or of a selector that fits one alone."""
    if name in gateway.stores.inner:
        return gateway.stores.inner[name]
    found = select(gateway.stores, promql.selector(name))
    if len(found) != 1:
        raise promql.Wrong(f"{len(found)} series fit {name!r}, and a chart is of one")
    return found[0]


def window(request, known):
    """The ends of a chart in the series' unit: those of its address, else those of all that is stored."""
    start, step = known.record.start, known.record.step
    t0, t1 = start, start + max(known.slots, 1) * step
    if "from" in request.query:
        t0 = -(-time_of(request.query["from"]) // known.unit)
    if "to" in request.query:
        t1 = -(-time_of(request.query["to"]) // known.unit)
    if t0 >= t1:
        raise promql.Wrong("the window is empty: from is before to")
    return t0, t1


def bounds(request, known):
    """The range of the values: from `low` to `high`, or where these aren't named as far as they reach."""
    if "low" not in request.query and "high" not in request.query:
        return "auto"
    try:
        return "{}..{}".format(*(of_real(float(request.query[name]), known.record.scale) for name in ("low", "high")))
    except (KeyError, ValueError) as why:
        raise promql.Wrong(f"low and high are two numbers: {why}") from None


async def chart(gateway, request):
    try:
        known = one_series(gateway, request.match_info["name"])
        w, h = number(request, "width", WIDTH), number(request, "height", HEIGHT)
        t0, t1 = window(request, known)
        frame, opened = await drawn(gateway, known, child.view_line(known.name, w, h, t0, t1, bounds(request, known)))
        picture = await asyncio.to_thread(child.picture_of, opened, frame)
    except (promql.Wrong, Unfit, child.Refused) as why:
        raise web.HTTPBadRequest(text=f"{why}\n") from None
    except (child.Down, child.Lost, TimeoutError) as why:
        raise web.HTTPServiceUnavailable(text=f"{why}\n", headers={"Retry-After": "5"}) from None
    picture.series, picture.window, picture.unit = known.record._replace(name=text_of(known.key)), (t0, t1), UNIT_NAMES[known.unit]
    if request.match_info["form"] == "svg":
        return web.Response(text=picture.to_svg(), content_type="image/svg+xml", headers={"Cache-Control": "no-store"})
    return web.Response(body=await asyncio.to_thread(picture.to_png), content_type="image/png", headers={"Cache-Control": "no-store"})


async def drawn(gateway, known, line):
    """The frame of a view, and the frame that opened the session."""
    (frame,) = await known.keeper.ask([line], gateway.given.read.seconds / 10**9)
    child.rows_of(frame)
    gateway.counts.add("views_total")
    return frame, known.keeper.opened
