"""Edits from a stream, such as standard input: those that stand ready together are stored together."""
import os
import struct
import sys

from zurtkvani_client import Ended, words
from zurtkvani_client.page_rules import EDITS, LONGEST, MOST_LINES, REFUSED

AT_ONCE = 65536


def say(line, why):
    shown = line[:60].decode(errors="replace")
    print(f"serve.py: a line of the feed, {shown!r}, {why}", file=sys.stderr, flush=True)


def hand_on(program, lines):
    """Does those of some lines that are edits, and says which aren't, and which were refused."""
    for line in lines:
        if line.partition(b" ")[0] not in EDITS:
            say(line, "is no edit")
    edits = [line for line in lines if line.partition(b" ")[0] in EDITS]
    for at in range(0, len(edits), MOST_LINES):
        some = edits[at : at + MOST_LINES]
        for line, frame in zip(some, program.answers(some)):
            if frame[4] == REFUSED:
                say(line, f"is refused: {words.refusal(*struct.unpack('>BQQ', frame[5:]))}")


def feed(program, file):
    """Hands on the lines of a file descriptor until its end, or the program's."""
    rest = b""
    try:
        while piece := os.read(file, AT_ONCE):
            *lines, rest = (rest + piece).split(b"\n")
            hand_on(program, [line for line in lines if line.strip()])
            if len(rest) > LONGEST:
                say(rest, f"has more than {LONGEST} bytes: nothing more is taken from there")
                return
        hand_on(program, [rest] if rest.strip() else [])
    except (OSError, Ended):
        return
