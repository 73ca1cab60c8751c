"""What a series is called outside: labels, of which `__name__` is its name, as Prometheus has them. And what it is called in a store."""
import hashlib
import re

NAME = "__name__"
PLAIN = re.compile(r"[a-zA-Z_:][a-zA-Z0-9_:]*", re.ASCII)  # what a name has to be to stand in a selector without quotes
INNER = re.compile(r"[A-Za-z0-9_.-]{1,31}", re.ASCII)  # what a name in a store is
READABLE = 20  # signs of a name that are kept in front of its digest


def key_of(labels):
    """One value for each set of labels, whatever their order. Labels without a value are none."""
    return tuple(sorted((name, value) for name, value in labels.items() if value))


def quoted(value):
    return '"' + value.replace("\\", "\\\\").replace('"', '\\"').replace("\n", "\\n") + '"'


def text_of(key):
    """A key as a selector: name{label="value"}."""
    labels = dict(key)
    name = labels.pop(NAME, "")
    parts = [f"{label}={quoted(value)}" if PLAIN.fullmatch(label) else f"{quoted(label)}={quoted(value)}" for label, value in labels.items()]
    if not PLAIN.fullmatch(name):
        parts, name = [quoted(name)] * bool(name) + parts, ""
    return name + ("{" + ",".join(parts) + "}" if parts else "")


def own_name(key):
    """The name itself, where a store can keep it and there are no other labels; else None."""
    if len(key) == 1 and key[0][0] == NAME and INNER.fullmatch(key[0][1]):
        return key[0][1]
    return None


def made_name(key, is_taken):
    """A name for a store that isn't taken: the front of the series' name, and some of the digits of a digest of all its labels."""
    front = re.sub(r"[^A-Za-z0-9_.-]+", "_", dict(key).get(NAME, "")).strip("_")[:READABLE]
    digits = hashlib.sha256(repr(key).encode()).hexdigest()
    names = (f"{front}-{digits[at : at + 10]}".lstrip("-") for at in range(len(digits) - 10))
    return next(name for name in names if not is_taken(name))
