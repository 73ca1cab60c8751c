"""What collectors send: InfluxDB's line protocol, Prometheus' remote write, CSV. Each is answered once all of it is stored."""
import json
import time

from aiohttp import web

from . import bodies, child, collectd_points, csv_points, remote_write
from .intake import Busy, Outcome, parts_of
from .labels import NAME, key_of
from .line_protocol import PRECISIONS
from .stores import NoRoom

MOST_NAME = 1000  # bytes of a series' name in an address
VERSION = "1.8.0-zurtkvani"  # as InfluxDB's clients read it


class Failed(Exception):
    """Why a request wasn't taken in, and after how many seconds it may come again."""

    def __init__(self, words, seconds):
        self.words, self.seconds = words, seconds
        super().__init__(words)


async def take(gateway, parts, outcome):
    """Stores the points of parts. Raises Failed where the request may be sent again as it is."""
    try:
        gateway.intake.require_room()
        await gateway.intake.take(parts, outcome)
    except Busy as why:
        raise Failed(str(why), 1) from None
    except NoRoom as why:
        raise Failed(str(why), 60) from None
    except child.Down as why:
        raise Failed(str(why), 60) from None
    except TimeoutError:
        raise Failed("the store doesn't answer in time", 5) from None
    except child.Lost as why:
        raise Failed(f"the store's run ended: {why}", 5) from None
    except OSError as why:
        raise Failed(f"the table of names can't be written: {why}", 60) from None


def json_answer(status, told, **headers):
    return web.Response(status=status, text=json.dumps(told, separators=(",", ":")) + "\n", content_type="application/json", headers=headers)


def precision_of(request):
    precision = request.query.get("precision", "")
    if precision not in PRECISIONS:
        raise web.HTTPBadRequest(text=f"the precision {precision!r} isn't known: ns, us, ms, s, m or h\n")
    return precision


async def influx(gateway, request, database, answer):
    """The line protocol of either version; `answer` makes its answer of a status, words and headers."""
    precision, outcome = precision_of(request), Outcome()
    with gateway.budget.hold(request.content_length or gateway.given.limits.body):
        body = await bodies.read(request, gateway.given.limits)
        with gateway.budget.hold(len(body)):
            try:
                await take(gateway, gateway.line_reader.parts(body, database, precision, time.time_ns(), outcome), outcome)
            except Failed as why:
                return answer(503, why.words, **{"Retry-After": str(why.seconds)})
    told = "\n".join(outcome.errors)
    if outcome.errors and not outcome.taken and not outcome.dropped:
        return answer(400, told)
    if outcome.errors or outcome.dropped:
        return answer(400, f"partial write: {told or outcome.words()} dropped={outcome.dropped}")
    return web.Response(status=204, headers={"X-Influxdb-Version": VERSION})


def answer_1(status, words, **headers):
    line = "".join(sign if sign.isprintable() else " " for sign in words[:500])
    return json_answer(status, {"error": words}, **{"X-Influxdb-Error": line, "X-Influxdb-Version": VERSION}, **headers)


def answer_2(status, words, **headers):
    return json_answer(status, {"code": "invalid" if status == 400 else "unavailable", "message": words}, **headers)


async def write_1(gateway, request):
    """InfluxDB 1: /write?db=plant&precision=s."""
    return await influx(gateway, request, request.query.get("db", ""), answer_1)


async def write_2(gateway, request):
    """InfluxDB 2: /api/v2/write?org=o&bucket=plant&precision=s."""
    return await influx(gateway, request, request.query.get("bucket", ""), answer_2)


async def ping(_gateway, _request):
    return web.Response(status=204, headers={"X-Influxdb-Version": VERSION})


async def query_1(_gateway, request):
    """What InfluxDB's clients ask before they write: which databases there are, and that one be made. All else is no question for here."""
    asked = request.query.get("q") or (await request.post()).get("q", "")
    words = asked.strip().rstrip(";").upper().split()
    if words[:2] in (["CREATE", "DATABASE"], ["DROP", "DATABASE"], ["ALTER", "RETENTION"], ["CREATE", "RETENTION"]):
        if words[0] != "CREATE" or words[1] != "DATABASE":
            return answer_1(400, "a database of the gateway is a label alone, and isn't dropped or changed")
        return json_answer(200, {"results": [{"statement_id": 0}]})
    if words[:2] == ["SHOW", "DATABASES"]:
        return json_answer(200, {"results": [{"statement_id": 0, "series": [{"name": "databases", "columns": ["name"]}]}]})
    return answer_1(400, "the gateway is read by Prometheus' HTTP API, /api/v1/query and /api/v1/query_range, not by InfluxQL")


async def remote(gateway, request):
    """Prometheus' remote write: snappy around protobuf."""
    if gateway.snappy is None:
        return web.Response(status=501, text="python3-snappy isn't installed, so remote write can't be unpacked\n")
    outcome = Outcome()
    with gateway.budget.hold(request.content_length or gateway.given.limits.body):
        packed = await bodies.packed(request, gateway.given.limits)
        message = unpacked(gateway.snappy, packed, gateway.given.limits.unpacked)
        with gateway.budget.hold(len(message)):
            try:
                await take(gateway, parts_of(remote_write.points(message, outcome)), outcome)
            except remote_write.Bad as why:
                raise web.HTTPBadRequest(text=f"the message isn't a WriteRequest: {why}\n") from None
            except Failed as why:
                return web.Response(status=503, text=why.words + "\n", headers={"Retry-After": str(why.seconds)})
    if outcome.dropped:
        return web.Response(status=400, text=f"{outcome.dropped} samples can't be stored, all others are: {outcome.words()}\n")
    return web.Response(status=204)


def unpacked(snappy, packed, most):
    """What snappy has packed. The length stands in front, so a message that is too large isn't unpacked."""
    try:
        length, _ = remote_write.varint(packed, 0)
        if length > most:
            raise web.HTTPRequestEntityTooLarge(max_size=most, actual_size=length)
        return snappy.uncompress(packed)
    except (remote_write.Bad, snappy.UncompressError) as why:
        raise web.HTTPBadRequest(text=f"the body isn't snappy: {why}\n") from None


async def csv(gateway, request):
    """CSV of one series: /csv/NAME?precision=s&room=kitchen; the words but the precision are labels."""
    name = request.match_info["name"]
    if not name or len(name.encode()) > MOST_NAME:
        raise web.HTTPBadRequest(text="a series' name has 1 to 1,000 bytes\n")
    precision, outcome = precision_of(request), Outcome()
    labels = {label: value for label, value in request.query.items() if label not in ("precision", "p", "u")}
    with gateway.budget.hold(request.content_length or gateway.given.limits.body):
        body = await bodies.read(request, gateway.given.limits)
        with gateway.budget.hold(len(body)):
            text = decoded(body)
            try:
                points = csv_points.points(text, key_of({**labels, NAME: name}), precision, outcome)
                await take(gateway, parts_of(points), outcome)
            except Failed as why:
                return json_answer(503, {"error": why.words}, **{"Retry-After": str(why.seconds)})
    told = {"taken": outcome.taken, "left_out": outcome.left_out, "dropped": outcome.dropped + outcome.bad}
    if told["dropped"]:
        return json_answer(400, {**told, "error": "; ".join([*outcome.errors, *filter(None, [outcome.words()])])})
    return json_answer(200, told)


async def collectd(gateway, request):
    """collectd's write_http, in its format JSON."""
    outcome = Outcome()
    with gateway.budget.hold(request.content_length or gateway.given.limits.body):
        body = await bodies.read(request, gateway.given.limits)
        try:
            await take(gateway, parts_of(collectd_points.points(body, outcome)), outcome)
        except Failed as why:
            return json_answer(503, {"error": why.words}, **{"Retry-After": str(why.seconds)})
    if outcome.errors or outcome.dropped:
        return json_answer(400, {"error": "; ".join([*outcome.errors, *filter(None, [outcome.words()])])})
    return web.Response(status=204)


def decoded(body):
    try:
        return body.decode("utf-8-sig")
    except UnicodeDecodeError as why:
        raise web.HTTPBadRequest(text=f"the body isn't UTF-8: {why}\n") from None
