"""What collectd's plugin write_http sends in its format JSON, as points: a list of value lists."""
import json
import math
from decimal import Decimal, InvalidOperation

from .intake import Point
from .labels import NAME, key_of


def points(body, outcome):
    """The points of a body. What is no value list is told by the outcome."""
    try:
        listed = json.loads(body, parse_float=str)
    except (ValueError, RecursionError) as why:
        outcome.fail(f"the body is no JSON: {why}")
        return
    for at, one in enumerate(listed if isinstance(listed, list) else [listed]):
        try:
            found = list(of_list(one))
        except (KeyError, TypeError, ValueError, AttributeError, InvalidOperation, OverflowError) as why:
            reason = {KeyError: f"it has no {why}", InvalidOperation: "a number of it is none"}.get(type(why), why)
            outcome.fail(f"value list {at} isn't one of collectd's: {reason}")
            yield None
            continue
        for key, plugin, time, value in found:
            if value is None or isinstance(value, float) and not math.isfinite(value):
                outcome.left_out += 1
                yield None
            else:
                yield Point(key, plugin, time, value)


def of_list(one):
    """The series, plugin, time and value of each value of a list. A series is called collectd_PLUGIN_TYPE, with the value's name behind that."""
    time = Decimal(str(one["time"]))
    if not time.is_finite() or time.adjusted() > 12:
        raise ValueError(f"{time} is no time")
    time = int(time * 10**9)
    if len(one["values"]) != len(one["dsnames"]):
        raise ValueError("as many names as values are wanted")
    labels = {label: str(one.get(label) or "") for label in ("host", "plugin_instance", "type_instance")}
    for name, value in zip(one["dsnames"], one["values"]):
        if isinstance(value, bool) or not isinstance(value, (int, float, str, type(None))):
            raise TypeError(f"{value!r} is no value")
        if isinstance(value, str):
            Decimal(value)
        words = ["collectd", str(one["plugin"]), str(one["type"]), *([name] if name != "value" else [])]
        yield key_of({**labels, NAME: "_".join(words)}), str(one["plugin"]), time, value
