"""How an alarm is told: by a command, a POST of HTTP or a message of MQTT, each again and again until it succeeds or is given up.

What is told is a line of JSON. A command gets it on its standard input and never as an argument, since a client may have made it.
"""
import asyncio
import collections
import contextlib
import functools
import json
import os
import signal
import time

import aiohttp

from .log import tell
from .mqtt import Away

FIRST_DELAY, MOST_DELAY = 1.0, 60.0  # seconds until a way is tried again
MOST_UNTOLD = 1000  # events of a rule and a way; beyond that the oldest is dropped


class Untold(Exception):
    """Why an event wasn't taken."""


def text_of(event):
    return (json.dumps(event, ensure_ascii=False) + "\n").encode()


async def by_command(words, event):
    pipe, nothing = asyncio.subprocess.PIPE, asyncio.subprocess.DEVNULL
    process = await asyncio.create_subprocess_exec(*words, stdin=pipe, stdout=nothing, stderr=nothing, start_new_session=True)
    try:
        await process.communicate(text_of(event))
    finally:
        if process.returncode is None:
            with contextlib.suppress(ProcessLookupError):
                os.killpg(process.pid, signal.SIGKILL)
            await process.wait()
    if process.returncode:
        raise Untold(f"status {process.returncode}")


async def by_post(address, event):
    async with aiohttp.ClientSession() as session:
        async with session.post(address, data=text_of(event), headers={"Content-Type": "application/json"}, allow_redirects=False) as answer:
            if not 200 <= answer.status < 300:
                raise Untold(f"status {answer.status}")


class Teller:
    """Tells the events of one rule by one way, one behind the other."""

    def __init__(self, name, way, send, given, counts, on_told):
        self.name, self.way, self.send = name, way, send
        self.given, self.counts, self.on_told = given, counts, on_told
        self.events, self.task = collections.deque(), None
        self.is_told = False  # whether the first one is, and isn't kept as told yet

    def add(self, event):
        self.events.append(event)
        if len(self.events) > MOST_UNTOLD:
            self._give_up(self.events[1], "too many wait")
            del self.events[1]  # the first one may be under way

    def wake(self):
        if self.events and (self.task is None or self.task.done()):
            self.task = asyncio.create_task(self._work())

    async def _work(self):
        while self.events:
            await self._told(self.events[0])
            self.is_told = True
            await self.on_told()
            self.events.popleft()
            self.is_told = False

    def untold(self):
        """What isn't told. What was told, which isn't kept yet, stands in front."""
        return list(self.events)[self.is_told :]

    async def _told(self, event):
        begun, delay = time.monotonic(), FIRST_DELAY
        while True:
            try:
                async with asyncio.timeout(self.given.seconds / 10**9):
                    return await self.send(event)
            except (Untold, Away, OSError, ValueError, TimeoutError, aiohttp.ClientError) as why:
                words = str(why) or repr(why)
            if time.monotonic() + delay - begun > self.given.give_up / 10**9:
                return self._give_up(event, words)
            tell("an alarm isn't told yet", "warning", alarm=self.name, way=self.way, why=words)
            await asyncio.sleep(delay)
            delay = min(2 * delay, MOST_DELAY)

    def _give_up(self, event, why):
        self.counts.add("untold_alarms_total", alarm=self.name)
        tell("an alarm is given up, and not told", "error", alarm=self.name, way=self.way, why=why, told=event)

    async def stop(self):
        if self.task:
            self.task.cancel()
            await asyncio.wait({self.task})


class Tellers:
    """The ways of all rules."""

    def __init__(self, configuration, counts, publish, on_told):
        async def by_mqtt(topic, event):
            await publish(topic, text_of(event))

        self.all = {}
        for rule in configuration.alarm:
            for way, sender in (("command", by_command), ("post", by_post), ("mqtt", by_mqtt)):
                if target := getattr(rule, way):
                    send = functools.partial(sender, target)
                    self.all[rule.name, way] = Teller(rule.name, way, send, configuration.alarms, counts, on_told)

    def add(self, name, event, way=None):
        """Takes in what is to be told, by one way or by all of the rule."""
        for (of, how), teller in self.all.items():
            if of == name and way in (None, how):
                teller.add(event)

    def wake(self):
        for teller in self.all.values():
            teller.wake()

    def untold(self):
        return [{"alarm": name, "way": way, "event": event} for (name, way), teller in self.all.items() for event in teller.untold()]

    def waiting(self):
        """How much isn't told yet, or isn't kept as told."""
        return sum(len(teller.events) for teller in self.all.values())

    async def stop(self):
        await asyncio.gather(*(teller.stop() for teller in self.all.values()))
