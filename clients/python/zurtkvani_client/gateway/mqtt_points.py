"""Messages of MQTT, as points: a number, or a JSON object with a number and, where the rule names one, a time.

A point is of the series whose name is that of the rule, and whose label `topic` is the message's topic.
"""
import json

from ..timestamps import TimeReader
from ..unfit import Unfit
from . import line_protocol
from .csv_points import time_of
from .intake import Point
from .labels import NAME, key_of
from .mqtt_packets import fits

MOST_DEPTH = 20  # levels of a field


def points(message, rules, now, outcome):
    """The points of a message by the rules that fit its topic. What is no point, and what is left out, is told by the outcome."""
    found = [rule for rule in rules if fits(rule.match, message.topic)]
    if not found:
        outcome.fail(f"no rule fits the topic {message.topic!r}")
    for rule in found:
        try:
            value, time = reading_of(message, rule, now)
        except (Unfit, line_protocol.Bad) as why:
            outcome.fail(f"{message.topic}: {why}")
            continue
        # What a broker retained may be as old as may be.
        if value is None or message.is_retained and rule.time is None:
            outcome.left_out += 1
        else:
            yield Point(key_of({NAME: rule.name, "topic": message.topic}), None, time, value)


def reading_of(message, rule, now):
    """The value and the time of a message; the value is None for what is no number, as NaN."""
    if message.payload is None:
        raise Unfit("the message is too long")
    try:
        text = message.payload.decode()
        if rule.field is None:
            return value_of(text.strip()), now
        told = json.loads(text, parse_float=str, parse_int=str)
    except (ValueError, RecursionError) as why:
        raise Unfit(f"the message is no JSON, or not UTF-8: {why}") from None
    value = member(told, rule.field)
    if isinstance(value, bool) or value is None:
        value = None if value is None else int(value)
    else:
        value = value_of(value)
    return value, now if rule.time is None else time_of(as_text(member(told, rule.time)), "", TimeReader())


def member(told, path):
    for name in path.split("/")[:MOST_DEPTH]:
        if not isinstance(told, dict) or name not in told:
            raise Unfit(f"the object has no {path!r}")
        told = told[name]
    return told


def as_text(value):
    if not isinstance(value, str):
        raise Unfit("a time is a number or a date")
    return value


def value_of(value):
    """The value of a text, as of a field of the line protocol."""
    if not isinstance(value, str) or not value or value[0] == '"':
        raise Unfit("no number")
    return line_protocol.value_of(value)
