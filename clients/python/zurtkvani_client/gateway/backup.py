"""Backups of a running gateway: each store's file as it is between two turns, copied into the folder that the configuration names."""
import asyncio
import contextlib
import datetime
import json
import os
import shutil
import subprocess
import sys
import time
import urllib.error
import urllib.request

from aiohttp import web

from ..words import fault
from . import bring_up, child, configuration
from .log import tell
from .replacing import sync_folder

SECONDS = 3600  # for a whole backup


def copy(path, into):
    """Copies a file, by a reflink where the file system has them, with its holes."""
    done = subprocess.run(
        ["cp", "--reflink=auto", "--sparse=auto", "--", path, into], stdin=subprocess.DEVNULL, stdout=subprocess.DEVNULL, stderr=subprocess.PIPE
    )
    if done.returncode:
        raise OSError(done.stderr.decode(errors="replace").strip())


@contextlib.asynccontextmanager
async def twin(path, into):
    """A process that brings a copy up to what a file is, as often as it is asked; gives how to ask."""
    pipe = asyncio.subprocess.PIPE
    words = (sys.executable, "-I", bring_up.__file__, path, into)
    process = await asyncio.create_subprocess_exec(*words, stdin=pipe, stdout=pipe, stderr=asyncio.subprocess.DEVNULL, start_new_session=True)

    async def brought_up():
        try:
            process.stdin.write(b"\n")
            await process.stdin.drain()
            answer = await process.stdout.readline()
        except ConnectionError:
            answer = b""
        if not answer:
            raise OSError(f"{path} can't be read, or {into} can't be written")

    try:
        yield brought_up
    finally:
        process.stdin.close()
        await process.wait()


def bring_to_disk(path):
    with open(path, "rb") as file:
        os.fsync(file.fileno())


async def copy_store(keeper, folder):
    """Copies a store as it is between two turns, and tells how long it was held for that. Most is copied before, while it changes, and once more what
    changed meanwhile. A run that is started anew while the store is held finds nothing to finish, and so changes nothing."""
    into = os.path.join(folder, os.path.basename(keeper.path))
    before = keeper.state()
    await asyncio.to_thread(copy, keeper.path, into)
    async with twin(keeper.path, into) as brought_up:
        await brought_up()
        await asyncio.wait_for(keeper.is_up.wait(), 30)
        async with keeper.free:
            if keeper.run is None and not keeper.down:
                raise child.Lost(f"{keeper.path} has no run now")
            begun = time.monotonic()
            if keeper.state() != before:
                await brought_up()
            held = time.monotonic() - begun
    await asyncio.to_thread(bring_to_disk, into)
    return {"store": os.path.basename(keeper.path), "bytes": os.path.getsize(into), "seconds_held": round(held, 3)}


async def make(gateway):
    """Makes a backup, and tells of it. Its folder has its name once all of it is there."""
    now = datetime.datetime.now(datetime.timezone.utc).strftime("%Y-%m-%dT%H.%M.%SZ")
    whole = os.path.join(gateway.given.backup.folder, now)
    part = whole + ".part"
    os.makedirs(part)
    try:
        told = [await copy_store(keeper, part) for keeper in list(gateway.stores.keepers)]
        # The table is copied last, so it has each series that the copies have.
        if os.path.exists(gateway.stores.names.path):
            await asyncio.to_thread(copy, gateway.stores.names.path, part)
            await asyncio.to_thread(bring_to_disk, os.path.join(part, os.path.basename(gateway.stores.names.path)))
        await asyncio.to_thread(sync_folder, part)
        os.rename(part, whole)
        await asyncio.to_thread(sync_folder, gateway.given.backup.folder)
    except BaseException:
        shutil.rmtree(part, ignore_errors=True)
        raise
    tell("a backup is made", folder=whole, stores=told)
    return {"folder": whole, "stores": told}


async def answer(gateway, _request):
    if gateway.given.backup.folder is None:
        raise web.HTTPBadRequest(text="the configuration names no folder of backups: see [backup]\n")
    if gateway.backing_up.locked():
        raise web.HTTPConflict(text="another backup is being made\n")
    async with gateway.backing_up:
        try:
            told = await make(gateway)
        except (OSError, child.Lost) as why:
            raise web.HTTPServiceUnavailable(text=f"no backup is made: {why}\n") from None
    return web.Response(text=json.dumps(told) + "\n", content_type="application/json")


def main(path, token):
    """Asks the gateway of a configuration for a backup, and gives the exit status."""
    try:
        given = configuration.read(path).listen
    except configuration.Wrong as why:
        print(f"zurtkvani: {why}", file=sys.stderr)
        return 2
    host = str(given.address)
    if given.address.is_unspecified:
        host = "127.0.0.1" if given.address.version == 4 else "::1"
    asked = urllib.request.Request(f"http://{f'[{host}]' if ':' in host else host}:{given.port}/backup", data=b"", method="POST")
    if token:
        asked.add_header("Authorization", f"Bearer {token}")
    try:
        with urllib.request.build_opener(urllib.request.ProxyHandler({})).open(asked, timeout=SECONDS) as answered:
            told = json.load(answered)
    except urllib.error.HTTPError as why:
        print(f"zurtkvani: {why.read().decode(errors='replace').strip()}", file=sys.stderr)
        return 1
    except (OSError, ValueError) as why:
        print(f"zurtkvani: the gateway at {host}, port {given.port}, doesn't answer: {fault(getattr(why, 'reason', why))}", file=sys.stderr)
        return 1
    for store in told["stores"]:
        print(f"{store['store']}: {store['bytes']:,} bytes, held for {store['seconds_held']:.3f} s")
    print(f"the backup is {told['folder']}")
    return 0
