"""The table of the series whose labels don't fit the 31 bytes of a series' name: labels outside, a name in the stores."""
import json

from .labels import key_of, made_name, own_name
from .replacing import replace

VERSION = 1


class Damaged(Exception):
    """The table isn't what this module writes."""


class Names:
    """The table in a file. It changes by a whole new file in the old one's place, so a crash leaves the one or the other."""

    def __init__(self, path):
        self.path = path
        self.inner, self.outer, self.measurements = {}, {}, {}
        for labels, name, measurement in self._read():
            self._take(key_of(labels), name, measurement)

    def _read(self):
        try:
            with open(self.path, encoding="utf-8") as file:
                table = json.load(file)
            if table["version"] != VERSION:
                raise Damaged(f"{self.path} is of version {table['version']}; this is {VERSION}")
            return [(dict(one["labels"]), str(one["name"]), one.get("measurement")) for one in table["series"]]
        except FileNotFoundError:
            return []
        except (OSError, ValueError, KeyError, TypeError) as why:
            raise Damaged(f"{self.path} is no table of names: {why}; take it from a backup") from None

    def _take(self, key, name, measurement):
        self.inner[key], self.outer[name] = name, key
        if measurement is not None:
            self.measurements[key] = measurement

    def inner_of(self, key):
        """The name in a store; None where the series has none yet."""
        name = self.inner.get(key) or own_name(key)
        return name if self.outer.get(name, key) == key else None

    def key_of_inner(self, name):
        """The labels of a name in a store."""
        return self.outer.get(name) or (("__name__", name),)

    def add(self, wanted, is_taken):
        """Takes in series, pairs of a key and the measurement that it is of or None, and writes the table where it changes. Blocks."""
        added, names = {}, set()
        for key, measurement in wanted:
            known = self.inner_of(key)
            if known is not None and (measurement is None or key in self.measurements):
                continue
            name = known or made_name(key, lambda name: name in self.outer or name in names or is_taken(name))
            added[key] = (name, measurement)
            names.add(name)
        if added:
            self._write(added)
            for key, (name, measurement) in added.items():
                self._take(key, name, measurement)

    def _write(self, added):
        table = {key: (name, self.measurements.get(key)) for key, name in self.inner.items()} | added
        listed = [{"labels": dict(key), "name": name, "measurement": measurement} for key, (name, measurement) in table.items()]
        text = json.dumps({"version": VERSION, "series": listed}, ensure_ascii=False, separators=(",", ":"))
        replace(self.path, text.replace('},{"labels"', '},\n{"labels"'))
