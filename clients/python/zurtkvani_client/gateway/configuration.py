"""The file of configuration: TOML, each key with a default and a rule. What is wrong is named with its line."""
import argparse
import ipaddress
import os
import re
import tomllib
import types
import urllib.parse
from decimal import Decimal

from ..command import default_program, size
from ..decimals import MOST, decimal_of
from ..durations import duration_text, nanoseconds_in
from ..store_file import BLOCK, LEAST_BLOCKS, MOST_BLOCKS
from ..times import nanoseconds_at
from ..unfit import Unfit
from .mqtt_packets import is_filter, is_topic

FILE_NAME = re.compile(r"[A-Za-z0-9_][A-Za-z0-9_.-]{0,99}", re.ASCII)
DIGEST = re.compile(r"[0-9a-f]{64}", re.ASCII)
HEADER = re.compile(r"\s*(\[\[?)\s*([A-Za-z0-9_.-]+)\s*\]\]?\s*(#.*)?")
KEY = re.compile(r"\s*[\"']?([A-Za-z0-9_-]+)[\"']?\s*=")


class Wrong(Exception):
    """What is wrong with a configuration, and where."""


def text(value):
    if not isinstance(value, str):
        raise Unfit("is a text")
    return value


def number(least, most):
    def rule(value):
        if isinstance(value, bool) or not isinstance(value, int) or not least <= value <= most:
            raise Unfit(f"is a whole number from {least} to {most:,}")
        return value

    return rule


def duration(least, most):
    """A length of time in nanoseconds, from so many to so many seconds."""

    def rule(value):
        if not isinstance(value, str):
            raise Unfit('is a text, as "10s"')
        nanoseconds = nanoseconds_in(value)
        if not least * 10**9 <= nanoseconds <= most * 10**9:
            raise Unfit(f"is from {least:g} to {most:,} seconds")
        return nanoseconds

    return rule


def none_or(rule):
    """An empty text is None."""
    return lambda value: None if value == "" else rule(value)


def listed(rule):
    def rule_of_list(value):
        if not isinstance(value, list):
            raise Unfit("is a list, as [\"a\", \"b\"]")
        return [rule(one) for one in value]

    return rule_of_list


def a_size(least, most):
    def rule(value):
        if not isinstance(value, str):
            raise Unfit('is a text, as "64M"')
        try:
            count = size(value)
        except argparse.ArgumentTypeError as why:
            raise Unfit(str(why)) from None
        if not least <= count <= most:
            raise Unfit(f"is from {least:,} to {most:,} bytes")
        return count

    return rule


def address(value):
    try:
        return ipaddress.ip_address(text(value))
    except ValueError:
        raise Unfit("is an address of IP, as 127.0.0.1 or ::1") from None


def file_name(value):
    if not FILE_NAME.fullmatch(text(value)):
        raise Unfit("is a file's name without a folder: letters, digits, _, - and .")
    return value


def file_names(value):
    names = listed(file_name)(value)
    if not names or len(set(names)) < len(names):
        raise Unfit("names one file at least, and none twice")
    return names


def digest(value):
    if not DIGEST.fullmatch(text(value)):
        raise Unfit("is a SHA-256 in 64 small hexadecimal digits, as of `printf %s TOKEN | sha256sum`")
    return value


def truth(value):
    if not isinstance(value, bool):
        raise Unfit("is true or false")
    return value


def date(value):
    return nanoseconds_at(text(value))


def label(value):
    if value and not re.fullmatch(r"[a-zA-Z_][a-zA-Z0-9_]*", text(value), re.ASCII) or value == "__name__":
        raise Unfit("is a label's name, or empty for none")
    return value


def decimal(value):
    """An exact decimal: a number of TOML, or a text of one."""
    if isinstance(value, bool) or not isinstance(value, (int, str, Decimal)):
        raise Unfit("is a number, as 21.5")
    number = decimal_of(str(value))
    if number and not -30 <= number.adjusted() <= 18 or abs(number) > MOST:
        raise Unfit("is a number of at most 10^18 in size, and not below 10^-30")
    return number


def command(value):
    words = listed(text)(value)
    if words and not (os.path.isabs(words[0]) and all("\0" not in word for word in words)):
        raise Unfit("is a list that begins with a program's whole path, as [\"/usr/local/bin/page\", \"plant\"]")
    return words


def web_address(value):
    try:
        parts = urllib.parse.urlsplit(text(value))
        if parts.scheme in ("http", "https") and parts.hostname and parts.port != 0:
            return value
    except ValueError:
        pass
    raise Unfit("is an address of HTTP, as http://localhost:9000/alarms")


def topic(value):
    if not is_topic(text(value)):
        raise Unfit("is a topic, without + and #")
    return value


def topics(value):
    if not is_filter(text(value)):
        raise Unfit("is a topic, in which + stands for one level and # for all further ones")
    return value


def short_text(value):
    if len(text(value).encode()) >= 2**16:
        raise Unfit("has less than 65,536 bytes")
    return value


# For each section its keys, each with its default and its rule. package/gateway.toml has the same with comments.
SECTIONS = {
    "listen": {"address": ("127.0.0.1", address), "port": (8086, number(1, 65535)), "hosts": ([], listed(text))},
    "tokens": {"read": ([], listed(digest)), "write": ([], listed(digest))},
    "stores": {
        "folder": ("/var/lib/zurtkvani/gateway", text), "files": (["gateway.store"], file_names),
        "size": ("1G", a_size(LEAST_BLOCKS * BLOCK, MOST_BLOCKS * BLOCK)), "most": (8, number(1, 64)),
        "program": ("", text),
    },
    "write": {
        "database_label": ("db", label), "separator": ("_", text), "waiting_points": (200_000, number(1000, 10**8)),
        "waiting_bytes": ("128M", a_size(2**20, 2**36)), "seconds": ("30s", duration(1, 3600)),
    },
    "read": {
        "lookback": ("5min", duration(0.001, 10**8)), "most_steps": (11_000, number(1, 10**6)),
        "most_values": (1_000_000, number(1000, 10**9)), "at_once": (4, number(1, 1000)), "seconds": ("30s", duration(1, 3600)),
    },
    "page": {"folder": ("", none_or(text)), "module": ("", none_or(text)), "viewers": (256, number(1, 10_000))},
    "limits": {
        "body": ("16M", a_size(1024, 2**32)), "unpacked": ("64M", a_size(1024, 2**34)), "connections": (512, number(1, 100_000)),
        "client_connections": (128, number(1, 100_000)), "client_requests_a_second": (2000, number(1, 10**6)),
        "head_seconds": ("10s", duration(1, 3600)), "body_seconds": ("30s", duration(1, 3600)), "idle_seconds": ("75s", duration(1, 86_400)),
    },
    "retain": {"every": ("1h", duration(1, 10**8)), "quiet": ("2s", duration(0.001, 3600))},
    "backup": {"folder": ("", none_or(text))},
    "mqtt": {
        "host": ("", text), "port": (1883, number(1, 65535)), "client": ("zurtkvani-gateway", short_text), "user": ("", none_or(short_text)),
        "password_file": ("", none_or(text)), "tls": (False, truth), "authority": ("", none_or(text)),
        "keep_alive": ("30s", duration(1, 65535)),
    },
    "alarms": {
        "every": ("1s", duration(0.01, 3600)), "oldest": ("1h", duration(1, 10**10)), "seconds": ("30s", duration(0.1, 3600)),
        "give_up": ("1h", duration(0, 10**8)),
    },
}
# The keys of each [[series]], a rule for new series.
RULE = {
    "match": ("*", text), "step": ("10s", duration(0.000001, 2**31)), "scale": (3, number(0, 9)),
    "keep": ("", none_or(duration(1, 10**10))), "start": ("", none_or(date)), "before": ("30d", duration(0, 10**10)),
}
EVERYTHING = {"match": "*"}
# The keys of each [[alarm]].
ALARM = {
    "name": ("", text), "match": ("*", text), "over": ("", none_or(decimal)), "under": ("", none_or(decimal)), "rate": ("", none_or(decimal)),
    "stale": ("", none_or(duration(0.001, 10**10))), "within": ("1min", duration(0.000001, 10**8)), "ends": ("", none_or(decimal)),
    "lasts": ("0s", duration(0, 10**8)), "command": ([], command), "post": ("", none_or(web_address)), "mqtt": ("", none_or(topic)),
}
# The keys of each [[topic]].
TOPIC = {"match": ("", topics), "name": ("", text), "field": ("", none_or(text)), "time": ("", none_or(text))}
LISTS = {"series": RULE, "topic": TOPIC, "alarm": ALARM}


def lines_of(words):
    """The line of each key by its table, the number of its table among those of that name, and its own name."""
    found, table, counts = {}, "", {}
    for line, words_of_line in enumerate(words.splitlines(), 1):
        if header := HEADER.fullmatch(words_of_line):
            table = header[2]
            counts[table] = counts.get(table, -1) + 1
            found.setdefault((table, counts[table], None), line)
        elif key := KEY.match(words_of_line):
            found.setdefault((table, counts.get(table, 0), key[1]), line)
    return found


class Reader:
    """Reads tables by their rules, and tells the line of what is wrong."""

    def __init__(self, path, lines):
        self.path, self.lines = path, lines

    def wrong(self, table, at, key, why):
        line = self.lines.get((table, at, key)) or self.lines.get((table, at, None)) or 1
        return Wrong(f"{self.path}, line {line}: {why}")

    def section(self, table, given, rules, at=0):
        """The keys of a table, each as given or by its default."""
        if not isinstance(given, dict):
            raise self.wrong("", 0, table, f"{table} is a table: write [{table}]")
        for key in given:
            if key not in rules:
                raise self.wrong(table, at, key, f"[{table}] has no key {key!r}; it has {', '.join(rules)}")
        return types.SimpleNamespace(**{key: self.value(table, at, key, given, *rules[key]) for key in rules})

    def value(self, table, at, key, given, default, rule):
        value = given.get(key, default)
        try:
            return rule(value)
        except Unfit as why:
            shown = value if isinstance(value, Decimal) else repr(value)
            raise self.wrong(table, at, key, f"{key} = {shown}: {key} {why}") from None

    def tables(self, name, given):
        """The tables of a list, each by its keys."""
        if not isinstance(given, list):
            raise self.wrong(name, 0, None, f"{name} is a list of tables: write [[{name}]]")
        return [self.section(name, table, LISTS[name], at) for at, table in enumerate(given)]


def read(path):
    """The configuration in a file. Raises Wrong."""
    try:
        with open(path, encoding="utf-8") as file:
            words = file.read()
        given = tomllib.loads(words, parse_float=Decimal)
    except (OSError, UnicodeDecodeError, tomllib.TOMLDecodeError) as why:
        raise Wrong(f"{path}: {getattr(why, 'strerror', None) or why}") from None
    reader = Reader(path, lines_of(words))
    for table in given:
        if table not in SECTIONS and table not in LISTS:
            raise reader.wrong(table, 0, None, f"there is no section {table!r}; there are {', '.join([*SECTIONS, *LISTS])}")
    found = types.SimpleNamespace(**{
        table: reader.section(table, given.get(table, {}), rules) for table, rules in SECTIONS.items()
    })
    found.series = reader.tables("series", given.get("series", []))
    # Behind the rules that are named stands one for all names, by the defaults.
    found.series.append(reader.section("series", EVERYTHING, RULE, len(found.series)))
    found.topic = reader.tables("topic", given.get("topic", []))
    require_topics(reader, found)
    found.alarm = reader.tables("alarm", given.get("alarm", []))
    for at, rule in enumerate(found.alarm):
        require_alarm(reader, found, at, rule)
    found.stores.program = found.stores.program or default_program()
    found.stores.folder = os.path.abspath(found.stores.folder)
    require_whole(reader, found)
    return found


def require_topics(reader, found):
    """Refuses topics whose keys don't fit together."""
    if not found.mqtt.client:
        raise reader.wrong("mqtt", 0, "client", "client is the name by which the broker knows the gateway, and isn't empty")
    if found.mqtt.password_file and found.mqtt.user is None:
        raise reader.wrong("mqtt", 0, "password_file", "a password goes with a user: set user of [mqtt]")
    for at, rule in enumerate(found.topic):
        if not rule.name or rule.name in [one.name for one in found.topic[:at]]:
            raise reader.wrong("topic", at, "name", f"name = {rule.name!r}: each topic has a series' name of its own")
        if rule.time is not None and rule.field is None:
            raise reader.wrong("topic", at, "time", "time is of a JSON object, so there is a field with the value too")
        if not found.mqtt.host:
            raise reader.wrong("topic", at, None, "a topic wants a broker: set host of [mqtt]")


def require_alarm(reader, found, at, rule):
    """Refuses an alarm whose keys don't fit together, and notes its limit as it is shown."""
    kinds = [kind for kind in ("over", "under", "rate", "stale") if getattr(rule, kind) is not None]
    wrong = None
    if not rule.name or rule.name in [one.name for one in found.alarm[:at]]:
        wrong = "name", f"name = {rule.name!r}: each alarm has a name of its own"
    elif len(kinds) != 1:
        wrong = (kinds or [None])[-1], f"an alarm has one of over, under, rate and stale, and {rule.name!r} has {len(kinds)}"
    elif kinds == ["stale"] and (rule.ends is not None or rule.lasts):
        wrong = "ends" if rule.ends is not None else "lasts", "what is stale ends with the next value: ends and lasts aren't for it"
    elif kinds == ["rate"] and (rule.rate < 0 or rule.ends is not None and not 0 <= rule.ends <= rule.rate):
        wrong = "rate" if rule.rate < 0 else "ends", "rate is 0 at least, and ends lies between 0 and rate"
    elif rule.ends is not None and (kinds == ["over"] and rule.ends > rule.over or kinds == ["under"] and rule.ends < rule.under):
        wrong = "ends", f"ends = {rule.ends}: it is where the alarm ends, and lies {'below over' if kinds == ['over'] else 'above under'}"
    elif rule.mqtt and not found.mqtt.host:
        wrong = "mqtt", "a topic wants a broker: set host of [mqtt]"
    if wrong:
        raise reader.wrong("alarm", at, *wrong)
    rule.kind, limit = kinds[0], getattr(rule, kinds[0])
    rule.shown = duration_text(limit) if rule.kind == "stale" else f"{limit:f}"
    rule.shown += f" within {duration_text(rule.within)}" if rule.kind == "rate" else ""


def require_whole(reader, found):
    """Refuses what fits alone, but not together."""
    if len(found.stores.files) > found.stores.most:
        raise reader.wrong("stores", 0, "most", f"most = {found.stores.most}: {len(found.stores.files)} files are named")
    if not found.listen.address.is_loopback and not (found.tokens.read and found.tokens.write):
        raise reader.wrong("listen", 0, "address", "outside of loopback a token for reading and one for writing are wanted: see [tokens]")
    if found.write.waiting_bytes < found.limits.unpacked:
        raise reader.wrong("write", 0, "waiting_bytes", "waiting_bytes is at least unpacked of [limits]")
