"""What the trials of scripts/hand/gateway have in common: commands and servers of others, what the stores have, and comparisons."""
import contextlib
import json
import os
import shutil
import subprocess
import sys
import time
from decimal import Decimal

from built_program import ROOT, Failed, require

sys.path.insert(0, os.path.join(ROOT, "clients/python/tests"))

T = 1_700_000_000
MOST_SECONDS = 60


class PassedOver(Exception):
    """What isn't installed."""


def need(*commands):
    for command in commands:
        if not (shutil.which(command) or os.path.exists(f"/usr/sbin/{command}")):
            raise PassedOver(f"{command} isn't installed")


def run(*words, text=None, seconds=MOST_SECONDS):
    """What a command sends to its standard output; one that fails is told."""
    done = subprocess.run(words, input=text, stdout=subprocess.PIPE, stderr=subprocess.PIPE, text=True, timeout=seconds)
    require(done.returncode == 0, f"{' '.join(words)[:200]}: status {done.returncode}: {done.stderr[-500:]}{done.stdout[-300:]}")
    return done.stdout


@contextlib.contextmanager
def server(log, *words, **named):
    """A server of another's, ended at the end."""
    with open(log, "w") as file:
        process = subprocess.Popen(words, stdin=subprocess.DEVNULL, stdout=file, stderr=file, start_new_session=True, **named)
    try:
        yield process
    finally:
        process.terminate()
        try:
            process.wait(20)
        except subprocess.TimeoutExpired:
            process.kill()
            process.wait()


def succeeds(*words):
    return subprocess.run(words, stdout=subprocess.DEVNULL, stderr=subprocess.DEVNULL, timeout=20).returncode == 0


def until(holds, what, seconds=30):
    ends = time.monotonic() + seconds
    while time.monotonic() < ends:
        if holds():
            return
        time.sleep(0.1)
    raise Failed(what)


def raw(gateway, query, at):
    """The values of all series of a query: by their labels, each by its time."""
    data = gateway.told_of("query", query=query, time=at)
    return {tuple(sorted(one["metric"].items())): {time_of: Decimal(value) for time_of, value in one["values"]} for one in data["result"]}


def stored(gateway):
    """All values of the stores, by the labels of their series, as the program tells them behind the gateway's end."""
    names_path = os.path.join(gateway.stores, "names.json")
    outer = {}
    if os.path.exists(names_path):
        with open(names_path, encoding="utf-8") as file:
            outer = {one["name"]: tuple(sorted(one["labels"].items())) for one in json.load(file)["series"]}
    found = {}
    for store in sorted(name for name in os.listdir(gateway.stores) if name.endswith(".store")):
        for name in gateway.listed(store):
            labels = outer.get(name, (("__name__", name),))
            found[labels] = {at: Decimal(value) for at, value in gateway.exported(name, store).items()}
    return found


def compare(found, expected, what):
    """Requires that two sets of series are equal, and tells the first place where they aren't."""
    require(found.keys() == expected.keys(), f"{what}: series {sorted(found.keys() ^ expected.keys())[:3]} stand on one side alone")
    for labels, values in expected.items():
        differing = sorted(at for at in values.keys() | found[labels].keys() if values.get(at) != found[labels].get(at))
        require(not differing, f"{what}: {labels} differs at {differing[:3]} of {len(differing)}")
    return sum(map(len, expected.values()))


def labels(name, **more):
    return tuple(sorted({"__name__": name, **more}.items()))
