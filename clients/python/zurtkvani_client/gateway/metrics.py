"""What the gateway counts, and how it tells that at /metrics in Prometheus' form."""
import asyncio
import time

from . import child
from .labels import quoted

PREFIX = "zurtkvani_gateway_"
MOST_SECONDS = 5  # until a store tells its pages
HELP = {
    "points_total": "Points that were acknowledged as stored",
    "dropped_points_total": "Points that can't be stored",
    "left_out_total": "Values that are no numbers: NaN, texts",
    "mqtt_messages_total": "Messages of MQTT that were taken in and acknowledged",
    "edits_total": "Lines of edits that were answered",
    "turns_total": "Turns of edits; those of a turn share commits: at most one each, and at least one where something changed",
    "turn_seconds_total": "Time of these turns",
    "requests_total": "Requests by what they asked for and their status",
    "request_seconds_total": "Time of these requests",
    "views_total": "Views that were asked of stores",
    "page_views_total": "Views that pages were answered: by a session of their own, whole, or as another page",
    "pushes_total": "Changes that pages were told, together where they came together",
    "push_seconds_total": "Time from a change to when a page was sent it, of these",
    "made_series_total": "Series that the gateway made",
    "alarms_total": "Alarms that began and that ended",
    "untold_alarms_total": "Alarms that were given up, and not told",
}
LABELLED = {"requests_total", "request_seconds_total", "page_views_total", "alarms_total", "untold_alarms_total"}  # sums of which there is one for each label


class Counts:
    """Sums that only rise, by name and labels."""

    def __init__(self):
        self.sums = {(name, ()): 0 for name in HELP if name not in LABELLED}
        self.begun = time.time()

    def add(self, name, count=1, **labels):
        key = name, tuple(labels.items())
        self.sums[key] = self.sums.get(key, 0) + count

    def lines(self):
        for name, means in HELP.items():
            yield f"# HELP {PREFIX}{name} {means}"
            yield f"# TYPE {PREFIX}{name} counter"
            for (of, labels), count in self.sums.items():
                if of == name:
                    yield sample(name, labels, count)


def sample(name, labels, value):
    told = ",".join(f"{label}={quoted(str(held))}" for label, held in labels)
    return f"{PREFIX}{name}{{{told}}} {value}" if told else f"{PREFIX}{name} {value}"


def gauge(name, means, samples):
    yield f"# HELP {PREFIX}{name} {means}"
    yield f"# TYPE {PREFIX}{name} gauge"
    for labels, value in samples:
        yield sample(name, labels, value)


async def pages_of(keeper):
    """The pages in use of a store and all of them, as its run tells them; None where it has none, or tells nothing in time."""
    try:
        (frame,) = await asyncio.wait_for(keeper.ask([child.LIST], MOST_SECONDS), MOST_SECONDS)
        return child.pages_of(frame)
    except (child.Down, child.Lost, TimeoutError):
        return None


async def text(gateway):
    """All of /metrics."""
    keepers = list(gateway.stores.keepers)
    stores = [((("store", gateway.store_name(keeper)),), keeper) for keeper in keepers]
    told = await asyncio.gather(*map(pages_of, keepers))
    pages = [(labels, found) for (labels, _), found in zip(stores, told) if found]
    lines = [
        *gateway.counts.lines(),
        *gauge("waiting_points", "Points that aren't answered", [((), gateway.waiting())]),
        *gauge("waiting_bytes", "Bytes of bodies that are being taken in", [((), gateway.budget.taken)]),
        *gauge("series", "Series of a store", [(labels, gateway.stores.count(keeper)) for labels, keeper in stores]),
        *gauge("store_up", "1 where a store has a run", [(labels, int(bool(keeper.run))) for labels, keeper in stores]),
        *gauge("store_restarts", "How often a store's run was started again", [(labels, keeper.restarts) for labels, keeper in stores]),
        *gauge("store_pages_used", "Pages in use of a store", [(labels, used) for labels, (used, _) in pages]),
        *gauge("store_pages_left", "Pages of a store that are free", [(labels, total - used) for labels, (used, total) in pages]),
        *gauge("alarms", "Alarms that have begun and not ended", [((), len(gateway.alarms.active()))]),
        *gauge("page_viewers", "Pages that look at the stores", [((), len(gateway.viewers.held))]),
        *gauge("start_time_seconds", "When the gateway was started", [((), int(gateway.counts.begun))]),
    ]
    return "\n".join(lines) + "\n"
