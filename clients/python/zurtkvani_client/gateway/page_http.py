"""The page of clients/web behind the gateway: its files, the lines that it sends, the series, and the stream of what changes."""
import asyncio
import base64
import os
import time

from aiohttp import web

from .. import page_rules
from . import bodies, child
from .labels import text_of
from .viewers import Full

PUSHED = "X-Chart-Pushed"  # the header of an answer with how many frames its session had been pushed before it
TAKEN = (b"open", b"close", b"view", b"sum", b"follow", b"unfollow")
MOST_ALARMS = 100  # that a page shows
MOST_PUSHES = 200  # a second, of all pages; what changes faster is told together


class Refusal(Exception):
    """What the gateway doesn't do, as the page reads it, and its status."""

    def __init__(self, status, why):
        super().__init__(why)
        self.status = status


def refusing(answer):
    """Gives a refusal as the page reads it, and each answer the page's headers."""

    async def answering(gateway, request):
        try:
            response = await answer(gateway, request)
        except Refusal as why:
            response = web.json_response({"error": str(why)}, status=why.status)
        if not response.prepared:
            response.headers.update(page_rules.HEADERS)
        return response

    return answering


def folder_of(given):
    """The folder of the page's files, or None where there is none."""
    places = [given.folder] if given.folder else page_rules.FOLDERS
    return next((place for place in places if os.path.exists(os.path.join(place, "index.html"))), None)


@refusing
async def file(gateway, request):
    folder = folder_of(gateway.given.page)
    found = page_rules.file_of(request.path, folder, gateway.given.page.module) if folder else None
    try:
        if found is None:
            raise FileNotFoundError
        body = await asyncio.to_thread(read, found[0])
    except OSError:
        why = "its module isn't built" if request.path == "/" + page_rules.MODULE else "no such file"
        raise Refusal(404, why) from None
    return web.Response(body=body, headers={"Content-Type": found[1]})


def read(path):
    with open(path, "rb") as it:
        return it.read()


async def body_of(gateway, request):
    """The body of a request, which tells its length."""
    if request.content_length is None or request.content_length > page_rules.MOST_BYTES:
        raise Refusal(400, f"a body has its length, and at most {page_rules.MOST_BYTES} bytes")
    return await bodies.packed(request, gateway.given.limits)


@refusing
async def lines(gateway, request):
    """Sends the frames of request lines, each as soon as it is there."""
    response = None
    try:
        wanted = page_rules.lines_of(await body_of(gateway, request), TAKEN)
        for line in wanted:
            frames = b"".join(await gateway.viewers.answer(line))
            if response is None:
                response = await begun(request, page_rules.FRAMES, **{PUSHED: str(gateway.viewers.pushed_to(wanted[0]))})
            await send(gateway, response, frames)
        return response
    except PermissionError:
        raise Refusal(403, "only open, close, view, sum, follow and unfollow are taken") from None
    except ValueError as why:
        raise Refusal(400, str(why)) from None
    except (Full, child.Down, TimeoutError) as why:
        if response is None:
            raise Refusal(503, str(why) or "the store has no run") from None
        # What the page has of the answer has no end, so that it begins anew.
        request.transport.abort()
        return response


async def begun(request, kind, **headers):
    """An answer that is sent piece by piece, also by nginx in front."""
    response = web.StreamResponse(headers={**page_rules.HEADERS, **headers, "Content-Type": kind, "X-Accel-Buffering": "no"})
    await response.prepare(request)
    return response


async def send(gateway, response, data):
    """Sends a piece. Raises TimeoutError where the page doesn't take what was sent before."""
    async with asyncio.timeout(gateway.given.read.seconds / 10**9):
        await response.write(data)


@refusing
async def catalog(gateway, _request):
    return web.json_response([told(known) for known in gateway.stores.inner.values()], headers={page_rules.OFFERS: "sum follow"})


def told(known):
    """A series as the page is told it; where it isn't called as in its store, by its labels too."""
    shown = text_of(known.key)
    return {**page_rules.told(known.told()), **({} if shown == known.name else {"shown": shown})}


@refusing
async def events(gateway, request):
    """A stream of what changes, which holds a session."""
    text = await body_of(gateway, request)
    number = int(text) if text.isdigit() and len(text) <= 10 else 0
    viewer = gateway.viewers.attach(number)
    if viewer is None:
        raise Refusal(404, "the session isn't open")
    try:
        response = await begun(request, page_rules.EVENTS, Connection="close")
        await send_changes(gateway, request, response, viewer)
        return response
    except TimeoutError:
        request.transport.abort()
        return response
    finally:
        gateway.viewers.detach(viewer)


async def send_changes(gateway, request, response, viewer):
    news, alarms, beaten, shown = gateway.news, gateway.alarms, float("-inf"), None
    while not (viewer.is_over or gateway.is_ending.is_set() or request.transport is None or request.transport.is_closing()):
        if time.monotonic() - beaten > page_rules.BEAT:
            beaten = time.monotonic()
            await send(gateway, response, page_rules.SIGN_OF_LIFE)
        if alarms.changes != shown:
            shown, listed = alarms.changes, alarms.listed()
            await send(gateway, response, page_rules.event("alarms", {"alarms": listed[:MOST_ALARMS], "count": len(listed)}))
        viewer.seen, series = await news.since(viewer.seen, page_rules.BEAT)
        while viewer.pushes:
            await send(gateway, response, page_rules.event("pushed", base64.b64encode(viewer.pushes.popleft()).decode()))
        if series:
            await send(gateway, response, page_rules.event("changed", [told(known) for known in series]))
            gateway.counts.add("pushes_total")
            gateway.counts.add("push_seconds_total", news.age(series))
            await asyncio.sleep(max(page_rules.REST, len(gateway.viewers.held) / MOST_PUSHES))
