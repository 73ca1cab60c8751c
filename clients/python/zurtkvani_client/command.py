"""The command `zurtkvani`: takes files of readings into a store, and serves stores by HTTP.

usage: zurtkvani import FILE .. --store STORE
       zurtkvani gateway CONFIG.toml
       zurtkvani backup CONFIG.toml

A FILE is a CSV, with whatever stands between two fields, gzip of one, `-` for standard input, or Parquet where pyarrow is installed.
Where the store or a series isn't there it is made: a series for each column of values, under the column's name.
"""
import argparse
import csv
import os
import sys
import zlib
import zoneinfo

from .durations import duration_text, nanoseconds_in
from .importing import Import
from .progress import Progress
from .run import Ended, Refused
from .sources import Unreadable
from .timestamps import UNITS, date_text
from .unfit import Unfit
from .words import fault

SIZES = {"": 1, "k": 2**10, "m": 2**20, "g": 2**30, "t": 2**40}


def length(text):
    try:
        return nanoseconds_in(text)
    except Unfit as why:
        raise argparse.ArgumentTypeError(str(why)) from None


def step(text):
    found = length(text)
    if not found:
        raise argparse.ArgumentTypeError("a step is longer than 0")
    return found


def encoding(text):
    try:
        "".encode(text)
        return text
    except LookupError:
        raise argparse.ArgumentTypeError(f"there is no encoding {text!r}, as utf-8 or latin-1") from None


def size(text):
    digits, unit = (text[:-1], text[-1].lower()) if text[-1:].isalpha() else (text, "")
    if not digits.isdigit() or unit not in SIZES:
        raise argparse.ArgumentTypeError(f"{text!r} is no size, as 64M or 1G")
    return int(digits) * SIZES[unit]


def zone(text):
    try:
        return zoneinfo.ZoneInfo(text)
    except (zoneinfo.ZoneInfoNotFoundError, ValueError, OSError):
        raise argparse.ArgumentTypeError(f"{text!r} is no time zone, as Europe/Zurich") from None


def delimiter(text):
    if len(text.replace("\\t", "\t")) != 1:
        raise argparse.ArgumentTypeError("a delimiter is one character, or \\t")
    return text.replace("\\t", "\t")


def names(text):
    return [name.strip() for name in text.split(",")]


def default_program():
    """The program of the repository that this package lies in, else the command `chart`."""
    beside = os.path.join(os.path.dirname(os.path.realpath(__file__)), "../../../chart")
    return os.path.normpath(beside) if os.path.isfile(beside) else "chart"


def version():
    """The version of the repository or the installation that this package lies in, else that of the package."""
    try:
        with open(os.path.join(os.path.dirname(os.path.realpath(__file__)), "../../../VERSION"), encoding="utf-8") as file:
            return file.read().strip()
    except OSError:
        from importlib import metadata

        return metadata.version("zurtkvani-client")


class Version(argparse.Action):
    """Tells the version, and ends."""

    def __init__(self, option_strings, dest, **_):
        super().__init__(option_strings, dest, nargs=0, help="tell the version")

    def __call__(self, parser, *_):
        print(f"zurtkvani {version()}")
        parser.exit()


def words():
    parser = argparse.ArgumentParser(prog="zurtkvani", description=__doc__, formatter_class=argparse.RawDescriptionHelpFormatter)
    parser.add_argument("--version", action=Version)
    commands = parser.add_subparsers(dest="command", required=True, metavar="COMMAND")
    add = commands.add_parser("import", help="take files of readings into a store").add_argument
    add("files", nargs="+", metavar="FILE", help="a file of readings; - is standard input")
    add("--store", required=True, help="the store's file; made where it isn't there")
    add("--program", default=default_program(), help="the chart program")
    add("--time", metavar="COLUMN", help="the column of the times, by its name or its number from 1; else it is looked for")
    add("--columns", type=names, metavar="COLUMN,..", help="the columns of values; else all but those that hold words")
    add("--series", type=names, metavar="NAME,..", help="the names of their series; else the columns' own")
    add("--form", help="the form of the dates, as of strptime: '%%d.%%m.%%Y %%H:%%M'; else ISO 8601")
    add("--zone", type=zone, help="the time zone of dates without an offset, as Europe/Zurich; else UTC")
    add("--numbers", choices=UNITS, help="what times that are numbers count since 1970; else told by their size")
    add("--delimiter", type=delimiter, help="what stands between two fields; else looked for")
    add("--decimal-comma", action="store_true", help="values have a comma for the point; else looked for")
    add("--encoding", type=encoding, help="of the text; else UTF-8, or UTF-16 by its first bytes")
    add("--start", help="the start of new series, a time as in the file; else found")
    add("--step", type=step, help="the step of new series, as 60s or 250ms; else found")
    add("--scale", type=int, choices=range(10), help="the number of decimals of new series; else found")
    add("--unit", choices=list(UNITS)[:3], help="what the series' times count since 1970; else seconds where these are enough")
    snaps = ("nearest", "floor", "none")
    add("--snap", choices=snaps, default="nearest", help="which slot takes a time between two: the nearest, the one before, or none")
    add("--tolerance", type=length, help="how far from its slot a time may be, as 200ms; else any")
    add("--exact", action="store_true", help="leave out what would have to be moved or rounded")
    add("--replace", action="store_true", help="that a row replaces the one before where both have one slot is no fault")
    add("--size", type=size, help="of a new store, as 64M; else reckoned from the rows")
    add("--dry-run", action="store_true", help="store nothing, and tell all the same")
    gateway = commands.add_parser("gateway", help="serve stores by HTTP: docs/GATEWAY.md")
    gateway.add_argument("configuration", metavar="CONFIG.toml", help="the file of configuration")
    backup = commands.add_parser("backup", help="have a running gateway copy its stores into the folder of its configuration")
    backup.add_argument("configuration", metavar="CONFIG.toml", help="the gateway's file of configuration")
    backup.add_argument("--token", default=os.environ.get("ZURTKVANI_TOKEN", ""), help="its token for writing; else that of ZURTKVANI_TOKEN")
    return parser


def told(done):
    """What an import found and did, line by line."""
    for grid, targets in done.plan.groups:
        for target in targets:
            yield (
                f"{target.series}: {target.taken:,} taken, {target.missing:,} without a value; start {grid.start} "
                f"({date_text(grid.first)}), step {grid.step} ({duration_text(grid.gap)}), scale {target.scale}"
            )
    yield from done.report.lines()
    yield f"{done.report.rows:,} rows, {done.report.left_out:,} times something was left out"


def run(given):
    """Does an import, tells of it, and gives the exit status."""
    done = Import(given, Progress())
    try:
        done.run()
    except (Unfit, Unreadable, OSError, EOFError, ValueError, csv.Error, zlib.error) as why:
        return stopped(done, fault(why), 1 if done.report.rows else 2)
    except Refused as why:
        return stopped(done, f"{why}: take a larger store, as by --size 1G" if why.name == "Full" else str(why), 1)
    except Ended as why:
        return stopped(done, str(why), 1)
    except KeyboardInterrupt:
        return stopped(done, "interrupted", 130)
    if done.plan.made:
        print(f"made {given.store}, {done.plan.made / 2**20:,.0f} MiB, with room for about {done.plan.made // 32:,} values")
    for line in told(done):
        print(line)
    return 1 if done.report.left_out else 0


def stopped(done, why, status):
    """Tells why an import didn't come to its end, and gives the status."""
    print(f"zurtkvani: {why}", file=sys.stderr)
    if done.report.rows:
        read = f"{done.report.rows:,} rows were read, and what was stored of them stays"
        print(f"zurtkvani: {read}; the same command reads all of them again", file=sys.stderr)
    return status


def serve(given):
    """Runs a gateway, or asks one for a backup; aiohttp and Python 3.11 are wanted for these alone."""
    try:
        from .gateway import backup, server
    except ImportError as why:
        print(f"zurtkvani: a gateway needs Python 3.11 and aiohttp, as of Debian's python3-aiohttp: {why}", file=sys.stderr)
        return 1
    return server.main(given.configuration) if given.command == "gateway" else backup.main(given.configuration, given.token)


def main(arguments=None):
    given = words().parse_args(arguments)
    if given.command != "import":
        return serve(given)
    if given.exact:
        given.snap = "none"
    try:
        status = run(given)
        sys.stdout.flush()
    except OSError as why:
        # Of what the import told, since its own errors were told by `run`. Nothing more is sent there then.
        os.dup2(os.open(os.devnull, os.O_WRONLY), 1)
        if not isinstance(why, BrokenPipeError):
            print(f"zurtkvani: what was done can't be told: {fault(why)}. What was stored stays", file=sys.stderr)
        return 1
    return status
