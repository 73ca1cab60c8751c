"""Who is let in: tokens, the names by which a gateway on loopback may be asked, and limits of each client."""
import base64
import binascii
import hashlib
import hmac
import time
import urllib.parse

from aiohttp import web

from .. import page_rules

READ, WRITE, EITHER, OPEN = "read", "write", "either", "open"  # what a token has to allow
LOOPBACK = ("localhost", "127.0.0.1", "::1")
MOST_CLIENTS = 10_000  # of which the pace is kept


def token_of(request):
    """The token that a request shows, by one of the ways of Prometheus' and InfluxDB's clients; empty where it shows none."""
    kind, _, shown = request.headers.get("Authorization", "").partition(" ")
    if kind.lower() in ("bearer", "token"):
        return shown.strip()
    if kind.lower() == "basic":
        try:
            return base64.b64decode(shown, validate=True).decode().partition(":")[2]
        except (binascii.Error, UnicodeDecodeError):
            return ""
    return request.headers.get(page_rules.TOKEN) or request.query.get("p", "")


def is_one_of(token, digests):
    """Whether a token has one of the digests, in the same time whichever it is."""
    own = hashlib.sha256(token.encode("utf-8", "surrogateescape")).hexdigest()
    return sum([hmac.compare_digest(own, digest) for digest in digests]) > 0


class Pace:
    """How fast each client may ask: so many requests a second, and as many at once."""

    def __init__(self, rate):
        self.rate, self.clients = rate, {}

    def wait_for(self, client):
        """The seconds until the client's next request, 0 where it may come now."""
        now = time.monotonic()
        if len(self.clients) >= MOST_CLIENTS:
            self.clients.clear()
        left, then = self.clients.get(client, (self.rate, now))
        left = min(self.rate, left + (now - then) * self.rate)
        self.clients[client] = (left - 1, now) if left >= 1 else (left, now)
        return 0 if left >= 1 else (1 - left) / self.rate


class Guard:
    """Lets requests in, or says why not."""

    def __init__(self, configuration):
        self.tokens = {READ: configuration.tokens.read, WRITE: configuration.tokens.write}
        self.tokens[EITHER] = self.tokens[READ] + self.tokens[WRITE] if all(self.tokens.values()) else []
        self.tokens[OPEN] = []
        self.hosts = {*LOOPBACK, *configuration.listen.hosts}
        self.names_matter = configuration.listen.address.is_loopback
        self.pace = Pace(configuration.limits.client_requests_a_second)

    def require(self, request, kind):
        """Raises what a request that isn't let in is answered."""
        wait = self.pace.wait_for(request.remote)
        if wait:
            raise web.HTTPTooManyRequests(text="too many requests a second of one client\n", headers={"Retry-After": str(int(wait) + 1)})
        self._require_place(request)
        if self.tokens[kind] and not is_one_of(token_of(request), self.tokens[kind]):
            headers = {"WWW-Authenticate": f'Bearer realm="{kind}"'}
            raise web.HTTPUnauthorized(text=f"a token for this is wanted: {kind}\n", headers=headers)

    def _require_place(self, request):
        """Keeps pages of other places from asking a gateway on loopback by way of somebody's browser."""
        host = host_of("//" + request.headers.get("Host", ""))
        if self.names_matter and host not in self.hosts:
            raise web.HTTPForbidden(text=f"this gateway isn't asked as {host!r}: see hosts of [listen]\n")
        origin = request.headers.get("Origin")
        if origin is not None and urllib.parse.urlsplit(origin).netloc != request.headers.get("Host"):
            raise web.HTTPForbidden(text="pages of another origin aren't let in\n")


def host_of(address):
    try:
        return urllib.parse.urlsplit(address).hostname or ""
    except ValueError:
        return ""
