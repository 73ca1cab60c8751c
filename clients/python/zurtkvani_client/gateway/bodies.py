"""Bodies of requests: read within their limits, and unpacked within theirs."""
import asyncio
import contextlib
import zlib

from aiohttp import web

PART = 2**16


class Budget:
    """How many bytes of bodies are in memory, of all requests together."""

    def __init__(self, most):
        self.most, self.taken = most, 0

    @contextlib.contextmanager
    def hold(self, count):
        if self.taken + count > self.most:
            raise web.HTTPServiceUnavailable(text="too many bodies at once\n", headers={"Retry-After": "1"})
        self.taken += count
        try:
            yield
        finally:
            self.taken -= count


async def read(request, limits):
    """The bytes of a body, unpacked where they are gzip or deflate. Raises what a request is answered whose body is too large, too slow or
    broken."""
    data = await packed(request, limits)
    coding = request.headers.get("Content-Encoding", "").strip().lower()
    if coding in ("", "identity"):
        return data
    if coding in ("gzip", "x-gzip", "deflate"):
        return await asyncio.to_thread(unpacked, data, limits.unpacked)
    raise web.HTTPUnsupportedMediaType(text=f"the coding {coding!r} isn't known: gzip, deflate or none\n")


async def packed(request, limits):
    """The bytes of a body as they came."""
    if (request.content_length or 0) > limits.body:
        raise too_large(request, limits.body)
    parts, count = [], 0
    try:
        async with asyncio.timeout(limits.body_seconds / 10**9):
            while part := await request.content.read(PART):
                parts.append(part)
                count += len(part)
                if count > limits.body:
                    raise too_large(request, limits.body)
    except TimeoutError:
        raise web.HTTPRequestTimeout(text="the body takes too long\n") from None
    return b"".join(parts)


def too_large(request, most):
    return web.HTTPRequestEntityTooLarge(max_size=most, actual_size=request.content_length or most + 1)


def unpacked(data, most):
    """What gzip or deflate has packed; more than so many bytes are never in memory."""
    reader = zlib.decompressobj(32 + zlib.MAX_WBITS)
    try:
        text = reader.decompress(data, most + 1)
    except zlib.error as why:
        raise web.HTTPBadRequest(text=f"the body can't be unpacked: {why}\n") from None
    if len(text) > most:
        raise web.HTTPRequestEntityTooLarge(max_size=most, actual_size=most + 1)
    if not reader.eof:
        raise web.HTTPBadRequest(text="the body is packed, and cut short\n")
    return text
