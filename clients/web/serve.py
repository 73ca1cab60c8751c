#!/usr/bin/env python3
"""A page for a store: gives the files of this folder to a browser, and answers its request lines by one `chart` that it starts.

It prints the page's address, which holds a token. It listens on the loopback address alone. Request lines are taken by POST only with
the token and from the page's own origin; without --edit none that edits. Where the program ends at its start, this ends with its status
and says why; where it ends later, the page says so, and no second one is started. It needs only Python.
"""
import argparse
import html
import os
import re
import secrets
import shutil
import signal
import sys
import tempfile
import threading
import urllib.parse
import webbrowser

HERE = os.path.dirname(os.path.realpath(__file__))
ROOT = os.path.dirname(os.path.dirname(HERE))
CHART = os.path.join(ROOT, "chart")
POLL = 0.1  # seconds from one look for the end to the next, where nobody connects
sys.dont_write_bytecode = True
sys.path[:0] = [HERE, os.path.join(ROOT, "clients/python")]

from page_server.changes import Changes  # noqa: E402
from page_server.feed import feed  # noqa: E402
from page_server.handler import MOST_STREAMS, Handler, Server  # noqa: E402
from page_server.program import Program, is_built  # noqa: E402
from page_server.sessions import Sessions  # noqa: E402
from zurtkvani_client import Ended, page_rules  # noqa: E402


class Stopped(Exception):
    """Why there is no page, in a line, and the status to end with."""

    def __init__(self, why, status=1):
        super().__init__(why)
        self.status = status


def read_words():
    words = argparse.ArgumentParser(prog="serve.py", description=__doc__, formatter_class=argparse.RawDescriptionHelpFormatter)
    words.add_argument("store")
    words.add_argument("names", nargs="*", metavar="name", help="a series to show, in a panel of its own")
    words.add_argument("--open", action="store_true", help="open the page in a browser")
    words.add_argument("--edit", action="store_true", help="take requests that edit, too")
    words.add_argument("--feed", action="store_true", help="take edits from standard input, too, a line each")
    words.add_argument("--port", type=int, default=0, help="the port; else a free one")
    words.add_argument("--token-file", metavar="FILE", help="the file of the token, made where it isn't there; else the token is new each time")
    words.add_argument("--origin", action="append", default=[], help="another origin that the page is reached by, as http://localhost:9000")
    words.add_argument("--log", metavar="FILE", help="write a line for each request to a file; - is standard error")
    words.add_argument("--program", help="the chart program; else ./chart of the repository")
    words.add_argument("--module", default=os.path.join(ROOT, "dist", page_rules.MODULE), help="the proved client's module; else the repository's")
    return words.parse_intermixed_args()


def token_of(path):
    """A new token, or the one of a file that its owner alone can read."""
    if path is None:
        return secrets.token_urlsafe(24)
    try:
        with os.fdopen(os.open(path, os.O_WRONLY | os.O_CREAT | os.O_EXCL, 0o600), "w", encoding="ascii") as file:
            file.write(secrets.token_urlsafe(24) + "\n")
    except FileExistsError:
        pass
    except OSError as fault:
        raise Stopped(f"the token's file {path} can't be made: {fault.strerror}") from None
    try:
        with open(path, encoding="ascii", errors="replace") as file:
            if os.fstat(file.fileno()).st_mode & 0o077:
                raise Stopped(f"the token's file {path} can be read by others: chmod 600 {path}")
            token = file.read(257).strip()
    except OSError as fault:
        raise Stopped(f"the token's file {path} can't be read: {fault.strerror}") from None
    if not re.fullmatch("[A-Za-z0-9_-]{16,256}", token):
        raise Stopped(f"the token's file {path} doesn't hold 16 to 256 letters, digits, - and _ alone")
    return token


def origins_of(others, port):
    for origin in others:
        if not re.fullmatch(r"https?://[A-Za-z0-9.\-\[\]:]+", origin):
            raise Stopped(f"{origin} is no origin: http:// or https://, a name, and its port where it isn't the usual one")
    return [f"http://127.0.0.1:{port}", f"http://localhost:{port}", *others]


def listening(port):
    try:
        return Server(("127.0.0.1", port), Handler)
    except OverflowError:
        raise Stopped(f"port {port} can't be had: ports are 0 to 65535") from None
    except OSError as fault:
        raise Stopped(f"port {port} can't be had: {fault.strerror}") from None


def open_log(path):
    if path is None:
        return None
    try:
        return sys.stderr if path == "-" else open(path, "a", encoding="utf-8", buffering=1)
    except OSError as fault:
        raise Stopped(f"the log {path} can't be written: {fault.strerror}") from None


def started(words, changes):
    """The program over the store. One that isn't built is never built here."""
    try:
        if words.program is None and not is_built(CHART):
            raise Stopped("the program isn't built: run ./chart --prove first")
        return Program(words.program or CHART, words.store, changes.tell)
    except Ended as end:
        raise Stopped(f"{words.store}: {end}", end.status if end.status > 0 else 1) from None
    except OSError as fault:
        raise Stopped(f"the program can't be started: {fault.strerror}: {fault.filename}") from None


def open_in_browser(address, folder):
    """Opens the address in a browser by way of a file that its owner alone can read: so the token is in no process's arguments."""
    path = os.path.join(folder, "open.html")
    with os.fdopen(os.open(path, os.O_WRONLY | os.O_CREAT | os.O_EXCL, 0o600), "w", encoding="utf-8") as file:
        file.write(f'<!doctype html><meta charset="utf-8"><meta http-equiv="refresh" content="0; url={html.escape(address)}"><title>Chart</title>\n')
    webbrowser.open("file://" + urllib.parse.quote(path))


def end_by_signal(*_):
    raise SystemExit(0)


def serve(server, words):
    """Answers until it is ended. A signal is noted and looked at between requests: what a handler raises is lost where it meets the
    collection of garbage."""

    def note(*_):
        server.is_ended = True

    signal.signal(signal.SIGTERM, note)
    query = "?" + urllib.parse.urlencode([("panel", name) for name in words.names]) if words.names else ""
    address = f"{server.origins[0]}/{query}#token={server.token}{'&edit' if words.edit else ''}"
    folder = tempfile.mkdtemp(prefix="chart-page-") if words.open else None
    try:
        print(address, flush=True)
        if words.feed:
            threading.Thread(target=feed, args=(server.program, sys.stdin.fileno()), daemon=True).start()
        if words.open:
            threading.Thread(target=open_in_browser, args=(address, folder), daemon=True).start()
        server.serve_forever(POLL)
    except KeyboardInterrupt:
        pass
    finally:
        server.program.stop()
        if folder:
            shutil.rmtree(folder, ignore_errors=True)


def main():
    words = read_words()
    signal.signal(signal.SIGTERM, end_by_signal)
    try:
        if words.feed and sys.stdin is None:
            raise Stopped("there is no standard input to take edits from")
        token, log = token_of(words.token_file), open_log(words.log)
        with listening(words.port) as server:
            server.token, server.log, server.edits, server.module = token, log, words.edit, words.module
            server.origins = origins_of(words.origin, server.server_address[1])
            server.changes, server.streams = Changes(), threading.BoundedSemaphore(MOST_STREAMS)
            server.program = started(words, server.changes)
            server.sessions = Sessions(server.program, server.changes)
            serve(server, words)
    except Stopped as why:
        print(f"serve.py: {why}", file=sys.stderr)
        return why.status
    except KeyboardInterrupt:
        pass
    return 0


if __name__ == "__main__":
    sys.exit(main())
