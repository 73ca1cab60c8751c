#!/usr/bin/env python3
"""Reads frames on standard input, and writes a raw PBM for each View and Rows frame to standard output.

usage: chart_client.py [--library FILE] [EVERY | --columns]

The client is the one in Python; with --library the proved one, in the shared library FILE. With EVERY a view's covers come before its
picture, after 0, EVERY, 2 * EVERY, .. of its coefficients. With --columns a picture's values are written in place of it: a line for each
column that has any, with the column, its least and its greatest value, and an empty line.
"""
import os
import sys

from zurtkvani_client.client import ByHand, Proved, load
from zurtkvani_client.frames import Stopped


def pbm_of(picture):
    return picture.to_pbm()


def columns_of(picture):
    """The values of a picture's columns as lines, with an empty one behind them."""
    values = ((x, picture.column(x)) for x in range(picture.w))
    return "".join(f"{x} {span[0]} {span[1]}\n" for x, span in values if span).encode() + b"\n"


def draw_all(frames, pictures, every=None, client_over=ByHand, told=pbm_of):
    """Reads frames from one stream, and writes what is told of their pictures to the other, with covers where `every` is given."""
    client = client_over(frames)

    def write_covers(view, client):
        for taken in range(0, view.count, every):
            pictures.write(client.cover(view, taken).to_pbm())
            pictures.flush()

    while frames.peek(1):
        start = client.offset
        try:
            _, picture = client.accept(write_covers if every else None)
        except Stopped as why:
            sys.exit(f"chart_client: the frame at byte {start}: {why}")
        if picture:
            pictures.write(told(picture))
            pictures.flush()


def main(words):
    client_over = ByHand
    if words[:1] == ["--library"] and len(words) > 1:
        try:
            calls = load(words[1])
        except (OSError, AttributeError) as why:
            sys.exit(f"chart_client: the library can't be loaded: {why}")
        client_over, words = (lambda frames: Proved(frames, calls)), words[2:]
    told = pbm_of
    if words == ["--columns"]:
        told, words = columns_of, []
    if words and not (len(words) == 1 and words[0].isascii() and words[0].isdigit() and int(words[0]) > 0):
        sys.exit("chart_client: its words are --library FILE, and a whole number above 0 or --columns")
    every = int(words[0]) if words else None
    if sys.stdin is None or sys.stdout is None:
        sys.exit("chart_client: standard input or output is closed")
    try:
        draw_all(sys.stdin.buffer, sys.stdout.buffer, every, client_over, told)
    except OSError as why:
        # Python would write what is left when it ends, and fail once more.
        os.dup2(os.open(os.devnull, os.O_WRONLY), sys.stdout.fileno())
        sys.exit(1 if isinstance(why, BrokenPipeError) else f"chart_client: {why}")


if __name__ == "__main__":
    main(sys.argv[1:])
