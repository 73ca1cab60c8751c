"""The HTTP server of a gateway: its addresses, its limits of connections, its start and its end."""
import asyncio
import contextlib
import gc
import json
import logging
import shutil
import signal
import sys
import time

from aiohttp import web

from ..words import fault
from . import alarms, backup, charts_http, configuration, metrics, names, page_http, prometheus_http, writes_http
from .gateway import Gateway
from .guard import EITHER, OPEN, READ, WRITE
from .log import LogLines, tell

GONE = 499  # what is counted for who has gone before the answer was sent
STOP_SECONDS = 60  # for requests that are under way when the gateway ends


async def metrics_of(gateway, _request):
    return web.Response(text=await metrics.text(gateway), headers={"Content-Type": "text/plain; version=0.0.4; charset=utf-8"})


async def health(gateway, _request):
    """200 where each store works, else 503, with what is wrong."""
    faults = gateway.faults()
    told = json.dumps({"status": "fail" if faults else "pass", "faults": faults}) + "\n"
    return web.Response(status=503 if faults else 200, text=told, content_type="application/json")


PAGE = (
    "/", "/{name:page|panels}.css", "/{folder:page|client}/{name}.js", "/{name:chart_client|proved_client|refusals}.js", "/chart_client.wasm",
)
# For each address its method, what a token has to allow, and who answers.
ROUTES = [
    ("POST", "/write", WRITE, writes_http.write_1), ("POST", "/api/v2/write", WRITE, writes_http.write_2),
    ("POST", "/api/v1/write", WRITE, writes_http.remote), ("POST", "/csv/{name}", WRITE, writes_http.csv),
    ("POST", "/collectd", WRITE, writes_http.collectd),
    ("GET", "/ping", OPEN, writes_http.ping), ("HEAD", "/ping", OPEN, writes_http.ping),
    ("POST", "/query", EITHER, writes_http.query_1), ("GET", "/query", EITHER, writes_http.query_1),
    ("GET", "/metrics", READ, metrics_of), ("GET", "/healthz", OPEN, health), ("GET", "/alarms", READ, alarms.listed),
    ("POST", "/backup", WRITE, backup.answer),
    ("GET", "/chart/{name:.+}.{form:png|svg}", READ, charts_http.chart),
    *((method, f"/api/v1/{path}", READ, answer) for method in ("GET", "POST") for path, answer in (
        ("query", prometheus_http.query), ("query_range", prometheus_http.query_range), ("series", prometheus_http.series),
        ("labels", prometheus_http.labels),
    )),
    *(
        (method, path, OPEN, page_http.file) for method in ("GET", "HEAD")
        for path in PAGE
    ),
    ("POST", "/request", READ, page_http.lines), ("POST", "/catalog", READ, page_http.catalog), ("POST", "/events", READ, page_http.events),
    ("GET", "/api/v1/label/{label}/values", READ, prometheus_http.label_values), ("GET", "/api/v1/metadata", READ, prometheus_http.metadata),
    ("GET", "/api/v1/status/buildinfo", READ, prometheus_http.build_info),
]


@contextlib.asynccontextmanager
async def turn_of(gateway, answer):
    """Waits for a turn, where an answer takes memory and time, so that few of these are made and sent at once."""
    if answer in LIGHT:
        yield
        return
    try:
        async with asyncio.timeout(gateway.given.read.seconds / 10**9):
            await gateway.reading.acquire()
    except TimeoutError:
        raise web.HTTPServiceUnavailable(text="too many queries at once\n", headers={"Retry-After": "5"}) from None
    try:
        yield
    finally:
        gateway.reading.release()


async def is_sent(response, request, seconds):
    """Sends an answer, and hangs up on who doesn't take it in time. Tells whether it was taken."""
    try:
        async with asyncio.timeout(seconds):
            await response.prepare(request)
            await response.write_eof()
        return True
    except (TimeoutError, ConnectionError):
        if request.transport:
            request.transport.abort()
        return False


def answering(gateway, path, kind, answer):
    """The handler of an address: it lets in, counts, and answers what went wrong within as 500."""

    async def handler(request):
        begun, status = time.monotonic(), 500
        try:
            gateway.guard.require(request, kind)
            async with turn_of(gateway, answer):
                response = await answer(gateway, request)
                status = response.status if await is_sent(response, request, gateway.given.read.seconds / 10**9) else GONE
            return response
        except web.HTTPException as why:
            status = why.status
            raise
        except (ConnectionError, asyncio.CancelledError):
            status = GONE
            raise
        except Exception as why:
            tell("a request failed", "error", path=path, why=repr(why))
            raise web.HTTPInternalServerError(text="the gateway failed at this request; its log tells more\n") from why
        finally:
            gateway.counts.add("requests_total", path=path, status=status)
            gateway.counts.add("request_seconds_total", time.monotonic() - begun, path=path)

    return handler


# What waits for no other answer.
LIGHT = {answer for _, _, kind, answer in ROUTES if kind != READ} | {metrics_of, alarms.listed, prometheus_http.build_info}
LIGHT |= {page_http.lines, page_http.catalog, page_http.events}


def application(gateway, doors):
    app = web.Application(client_max_size=gateway.given.limits.body, middlewares=[doors.note])
    for method, path, kind, answer in ROUTES:
        app.router.add_route(method, path, answering(gateway, path, kind, answer))
    return app


class Doors:
    """Counts connections, of all and of each client, and closes what is too much or asks nothing."""

    def __init__(self, limits):
        self.limits, self.clients = limits, {}
        self.open, self.silent = {}, set()  # handlers of connections: the client of each, and those that asked nothing yet

    @web.middleware
    async def note(self, request, handler):
        self.silent.discard(request.protocol)
        return await handler(request)

    def watch(self, server):
        """Takes the place of the calls by which aiohttp's server learns of its connections."""
        made, lost = server.connection_made, server.connection_lost

        def connection_made(handler, transport):
            made(handler, transport)
            self.enter(handler, transport)

        def connection_lost(handler, *why):
            lost(handler, *why)
            self.leave(handler)

        server.connection_made, server.connection_lost = connection_made, connection_lost

    def enter(self, handler, transport):
        client = (transport.get_extra_info("peername") or ("",))[0]
        self.open[handler] = client
        self.clients[client] = self.clients.get(client, 0) + 1
        self.silent.add(handler)
        if len(self.open) > self.limits.connections or self.clients[client] > self.limits.client_connections:
            transport.abort()
            return
        asyncio.get_running_loop().call_later(self.limits.head_seconds / 10**9, self.close_silent, handler, transport)

    def close_silent(self, handler, transport):
        if handler in self.silent:
            transport.abort()

    def leave(self, handler):
        self.silent.discard(handler)
        client = self.open.pop(handler, None)
        if client is not None:
            self.clients[client] -= 1
            if not self.clients[client]:
                del self.clients[client]


async def serve(given):
    """Serves until a signal, and ends the runs then."""
    gateway, ended = Gateway(given), asyncio.Event()
    for number in (signal.SIGINT, signal.SIGTERM):
        asyncio.get_running_loop().add_signal_handler(number, ended.set)
    await gateway.start()
    doors = Doors(given.limits)
    runner = web.AppRunner(
        application(gateway, doors), access_log=None, handle_signals=False, auto_decompress=False,
        keepalive_timeout=given.limits.idle_seconds / 10**9,
    )
    try:
        await runner.setup()
        doors.watch(runner.server)
        site = web.TCPSite(runner, str(given.listen.address), given.listen.port, shutdown_timeout=STOP_SECONDS)
        await site.start()
        if not page_http.folder_of(given.page):
            tell("the page isn't there", "warning", folder=given.page.folder or "beside the package")
        # What is there from the start stays: no collection of garbage, behind which requests wait, looks at it again.
        gc.freeze()
        tell("the gateway listens", address=str(given.listen.address), port=given.listen.port, series=len(gateway.stores.by_key))
        await ended.wait()
        tell("the gateway ends")
        gateway.is_ending.set()
        gateway.news.wake()
    finally:
        await runner.cleanup()
        await gateway.stop()


def main(path):
    """Runs a gateway by the configuration in a file, and gives its exit status."""
    logging.getLogger().addHandler(LogLines())
    try:
        given = configuration.read(path)
        if not shutil.which(given.stores.program):
            raise OSError(f"there is no program {given.stores.program} that may be run: see program of [stores]")
        asyncio.run(serve(given))
    except (configuration.Wrong, names.Damaged, OSError, ValueError) as why:
        print(f"zurtkvani: {fault(why)}", file=sys.stderr)
        return 2 if isinstance(why, configuration.Wrong) else 1
    except KeyboardInterrupt:
        return 130
    return 0
