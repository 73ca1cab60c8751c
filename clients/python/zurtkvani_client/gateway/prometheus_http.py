"""Prometheus' HTTP API, as far as dashboards need it to find series and to read them."""
import asyncio
import functools
import json
import time
from decimal import Decimal, InvalidOperation

from aiohttp import web

from ..times import nanoseconds_at
from ..unfit import Unfit
from . import child, evaluating, promql
from .evaluating import Evaluation, Line, select
from .promql import Selector, Wrong
from .reading import Reads, TooMuch

SECOND = 10**9
MOST_TIME = 2**63  # nanoseconds from 1970
FAILURES = {Wrong: (400, "bad_data"), Unfit: (400, "bad_data"), TooMuch: (422, "execution"), child.Down: (503, "unavailable"),
            child.Lost: (503, "unavailable"), child.Refused: (422, "execution"), TimeoutError: (503, "timeout")}


def in_form(answer):
    """An answer in Prometheus' form, of what `answer` gives or raises."""

    @functools.wraps(answer)
    async def answered(gateway, request):
        try:
            words = await words_of(request)
            async with asyncio.timeout(gateway.given.read.seconds / 10**9):
                data, *ways = await answer(gateway, words, request)
        except tuple(FAILURES) as why:
            status, kind = next(found for of, found in FAILURES.items() if isinstance(why, of))
            return form(status, spelled({"status": "error", "errorType": kind, "error": str(why) or "the query takes too long"}))
        text = data if isinstance(data, Spelled) else spelled(data)
        return form(200, f'{{"status":"success","data":{text}}}', **{"Zurtkvani-Read": ways[0]} if ways else {})

    return answered


class Spelled(str):
    """What is JSON already."""


def spelled(told):
    return json.dumps(told, ensure_ascii=False, separators=(",", ":"))


def form(status, text, **headers):
    return web.Response(status=status, text=text, content_type="application/json", headers=headers)


async def words_of(request):
    """The words of a request, of its address and, where it posts a form, of that: pairs."""
    posted = await request.post() if request.method == "POST" else {}
    return [*request.query.items(), *((key, value) for key, value in posted.items() if isinstance(value, str))]


def word(words, name, default=None):
    found = next((value for key, value in words if key == name), default)
    if found is None:
        raise Wrong(f"the parameter {name} is missing")
    return found


def nanoseconds_of(text):
    """The nanoseconds of a number of seconds; None where the text is no number. What is far from all times is one that is refused."""
    try:
        number = Decimal(text)
    except InvalidOperation:
        return None
    if not number.is_finite():
        return None
    return int(number * SECOND) if number.adjusted() < 12 else MOST_TIME * 10


def time_of(text):
    """The nanoseconds of a time: seconds since 1970, or a date."""
    found = nanoseconds_of(text)
    found = nanoseconds_at(text) if found is None else found
    if not -MOST_TIME <= found <= MOST_TIME:
        raise Wrong(f"{text!r} is too far from 1970")
    return found


def step_of(text):
    step = nanoseconds_of(text)
    step = promql.duration_of(text) if step is None else step
    if not 0 < step <= promql.LONGEST:
        raise Wrong(f"a step is above 0 and at most {promql.LONGEST // SECOND:,} seconds")
    return step


def seconds(nanoseconds):
    """A time as Prometheus tells it, in seconds; of what is finer than a millisecond, six decimals."""
    return nanoseconds // SECOND if nanoseconds % SECOND == 0 else round(nanoseconds / SECOND, 6)


def evaluation(gateway, first, step, count):
    reads = Reads(gateway.counts, gateway.given.read.most_values, gateway.given.read.seconds / 10**9)
    return Evaluation(gateway.stores, reads, gateway.given.read.lookback, first, step, count)


def ways_of(reads):
    return ",".join(sorted(reads.ways)) or "none"


@in_form
async def query_range(gateway, words, _request):
    first, last, step = time_of(word(words, "start")), time_of(word(words, "end")), step_of(word(words, "step"))
    if last < first:
        raise Wrong("the end is before the start")
    count = (last - first) // step + 1
    if count > gateway.given.read.most_steps:
        raise Wrong(f"{count:,} steps, and a query has at most {gateway.given.read.most_steps:,}: take a larger step")
    asked = evaluation(gateway, first, step, count)
    found = await asked.lines(promql.parse(word(words, "query")))
    if found and not isinstance(found[0], Line):
        found = [Line({}, found)]
    times = times_of(first, step, count)
    result = ",".join([f'{{"metric":{spelled(line.labels)},"values":[{pairs}]}}' for line in found if (pairs := pairs_of(times, line))])
    return Spelled(f'{{"resultType":"matrix","result":[{result}]}}'), ways_of(asked.reads)


def times_of(first, step, count):
    """The times of a query as Prometheus tells them."""
    if first % SECOND == 0 and step % SECOND == 0:
        return range(first // SECOND, (first + count * step) // SECOND, step // SECOND)
    return [seconds(first + at * step) for at in range(count)]


def pairs_of(times, line):
    """The values of a line as JSON, each behind its time. Of what a value is spelled with JSON quotes nothing."""
    return ",".join([f'[{at},"{text}"]' for at, text in zip(times, line.texts()) if text is not None])


@in_form
async def query(gateway, words, _request):
    at, tree = time_of(word(words, "time", f"{time.time():.3f}")), promql.parse(word(words, "query"))
    asked = evaluation(gateway, at, SECOND, 1)
    if isinstance(tree, Selector) and tree.range is not None:
        found = await evaluating.of_each(asked.found(tree), lambda known: raw_values(asked.reads, known, at, tree.range))
        result = [raw for raw in found if raw["values"]]
        return {"resultType": "matrix", "result": result}, ways_of(asked.reads)
    found = await asked.lines(tree)
    if found and not isinstance(found[0], Line):
        return {"resultType": "scalar", "result": [seconds(at), evaluating.text_of(found[0])]}, ways_of(asked.reads)
    pairs = [(line.labels, line.values[0]) for line in found if line.values[0] is not None]
    result = [{"metric": labels_of, "value": [seconds(at), evaluating.text_of(value)]} for labels_of, value in pairs]
    return {"resultType": "vector", "result": result}, ways_of(asked.reads)


async def raw_values(reads, known, at, length):
    """The values of a series themselves, each at its own time."""
    values = await reads.values(known, (at - length) // known.unit + 1, at // known.unit + 1)
    pairs = [[seconds(when * known.unit), evaluating.text_of(evaluating.real(number, known))] for _, when, number in values]
    return {"metric": known.labels, "values": pairs}


def selected(gateway, words, is_needed=False):
    """The series that fit one of the selectors of a request; all where it has none."""
    texts = [value for key, value in words if key == "match[]"]
    if not texts:
        if is_needed:
            raise Wrong("no match[] parameter provided")
        return list(gateway.stores.by_key.values())
    found = {known.key: known for text in texts for known in select(gateway.stores, promql.selector(text))}
    return list(found.values())


@in_form
async def series(gateway, words, _request):
    return [[known.labels for known in selected(gateway, words, True)]]


@in_form
async def labels(gateway, words, _request):
    return [sorted({label for known in selected(gateway, words) for label, _ in known.key})]


@in_form
async def label_values(gateway, words, request):
    name = request.match_info["label"]
    return [sorted({known.labels[name] for known in selected(gateway, words) if name in known.labels})]


@in_form
async def metadata(gateway, words, _request):
    name, most = word(words, "metric", ""), int(limit) if (limit := word(words, "limit", "")).isdigit() else None
    names = sorted(filter(None, gateway.stores.by_name))[:most]
    return [{one: [{"type": "gauge", "help": "", "unit": ""}] for one in names if name in ("", one)}]


@in_form
async def build_info(_gateway, _words, _request):
    # Dashboards choose by the version what they ask: what 2.42 knows of selectors and labels is understood.
    return [{"version": "2.42.0", "revision": "", "branch": "", "buildUser": "zurtkvani gateway", "buildDate": "", "goVersion": ""}]
