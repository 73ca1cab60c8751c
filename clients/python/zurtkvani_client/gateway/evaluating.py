"""What a query comes to at each of some times. Values are decimals, so sums and differences of stored ones are exact."""
import asyncio
import collections
import decimal
from decimal import Decimal

from .labels import NAME
from .matching import matches
from .promql import Aggregate, Call, Number, Selector, Wrong
from .reading import GREATEST, LAST, LEAST, Windows

# Sums, differences and products of a few stored values have no more digits; a quotient is rounded to so many.
EXACT = decimal.Context(prec=60, traps=[])
MOST_SERIES = 5_000
AT_ONCE = 32  # series of a query that are read at once


class Line(collections.namedtuple("Line", "labels given scale", defaults=[None])):
    """What a query comes to for some labels: a value, or None, for each time. Given are decimals, or where a scale is named, as stored values are,
    whole numbers of so many decimals."""

    def has_values(self):
        return any(value is not None for value in self.given)

    @property
    def values(self):
        if self.scale is None:
            return self.given
        return [None if number is None else Decimal(number).scaleb(-self.scale, EXACT) for number in self.given]

    def texts(self):
        """The values as Prometheus spells them."""
        if self.scale is None:
            return [None if value is None else text_of(value) for value in self.given]
        return [None if number is None else text_of_number(number, self.scale) for number in self.given]


class Evaluation:
    """One query at some times: the first one, and from one to the next, in nanoseconds."""

    def __init__(self, stores, reads, lookback, first, step, count):
        self.stores, self.reads, self.lookback = stores, reads, lookback
        self.first, self.step, self.count = first, step, count

    async def lines(self, tree):
        """The lines of a tree; a number is a list of values instead."""
        if isinstance(tree, Number):
            return [tree.value] * self.count
        if isinstance(tree, Selector):
            if tree.range is not None:
                raise Wrong("a selector with a range stands within a function, as avg_over_time, or alone in a query of one time")
            return [line for line in await of_each(self.found(tree), self.selected) if line.has_values()]
        if isinstance(tree, Call):
            lines = await of_each(self.found(tree.selector), lambda known: self.called(tree, known))
            return [line for line in lines if line.has_values()]
        if isinstance(tree, Aggregate):
            return self.aggregated(tree, await self.lines(tree.inner))
        return self.joined(tree, await self.lines(tree.left), await self.lines(tree.right))

    def found(self, selector):
        known = select(self.stores, selector.matchers)
        self.reads.spend(len(known) * self.count)
        return known

    def windows(self, length):
        return Windows(self.first, self.step, self.count, length)

    async def selected(self, known):
        """A series as it is at each time: its last value of those that lie no longer back than the lookback, or than two steps of the series."""
        found = await self.reads.folded(known, self.windows(max(self.lookback, 2 * known.gap)), LAST)
        return Line(known.labels, found, known.record.scale)

    async def called(self, tree, known):
        labels = {label: value for label, value in known.labels.items() if label != NAME}
        if tree.name in ("avg_over_time", "sum_over_time", "count_over_time"):
            sums = await self.reads.sums(known, self.windows(tree.selector.range))
            return Line(labels, [over(tree.name, total, count, known) for total, count in sums])
        what = {"min_over_time": LEAST, "max_over_time": GREATEST, "last_over_time": LAST}[tree.name]
        found = await self.reads.folded(known, self.windows(tree.selector.range), what)
        return Line(known.labels if what == LAST else labels, found, known.record.scale)

    def aggregated(self, tree, lines):
        if isinstance(lines, list) and lines and not isinstance(lines[0], Line):
            raise Wrong(f"{tree.name} is of series, not of a number")
        groups = {}
        for line in lines:
            labels = {label: value for label, value in line.labels.items() if (label in tree.labels) == tree.is_by and label != NAME}
            groups.setdefault(tuple(sorted(labels.items())), []).append(line.values)
        return [Line(dict(labels), [gathered(tree.name, values) for values in zip(*columns)]) for labels, columns in groups.items()]

    def joined(self, tree, left, right):
        """The two sides of a sign, time by time; of series those are joined that have the same labels but for the name."""
        is_left, is_right = (bool(side) and not isinstance(side[0], Line) for side in (left, right))
        if is_left and is_right:
            return pairwise(tree.sign, left, right)
        if is_left or is_right:
            lines, number = (right, left) if is_left else (left, right)
            sides = ((number, line.values) if is_left else (line.values, number) for line in lines)
            return [Line(nameless(line.labels), pairwise(tree.sign, *pair)) for line, pair in zip(lines, sides)]
        others = by_labels(right)
        return [
            Line(dict(labels), pairwise(tree.sign, values, others[labels])) for labels, values in by_labels(left).items() if labels in others
        ]


async def of_each(found, work):
    """What a work comes to for each of some series. Some are under way at once, since each waits for its turn among those who write."""
    answers = []
    for at in range(0, len(found), AT_ONCE):
        answers += await asyncio.gather(*map(work, found[at : at + AT_ONCE]))
    return answers


def nameless(labels):
    return {label: value for label, value in labels.items() if label != NAME}


def by_labels(lines):
    found = {}
    for line in lines:
        labels = tuple(sorted(nameless(line.labels).items()))
        if labels in found:
            raise Wrong(f"two series of one side have the same labels but for the name: {dict(labels)}; name more of them, or sum them first")
        found[labels] = line.values
    return found


def select(stores, matchers):
    """The series that fit, in the order of their labels."""
    named = next((matcher.value for matcher in matchers if matcher.label == NAME and matcher.names_one()), None)
    among = stores.by_key.values() if named is None else stores.by_name.get(named, ())
    found = sorted((known for known in among if matches(matchers, known.labels)), key=lambda known: known.key)
    if len(found) > MOST_SERIES:
        raise Wrong(f"{len(found):,} series fit, and a query reads at most {MOST_SERIES:,}")
    return found


def real(number, known):
    return Decimal(number).scaleb(-known.record.scale, EXACT)


def over(name, total, count, known):
    if not count:
        return None
    if name == "count_over_time":
        return Decimal(count)
    return real(total, known) if name == "sum_over_time" else EXACT.divide(real(total, known), Decimal(count))


def gathered(name, values):
    values = [value for value in values if value is not None]
    if not values:
        return None
    if name in ("min", "max"):
        return min(values) if name == "min" else max(values)
    if name == "count":
        return Decimal(len(values))
    total = Decimal(0)
    for value in values:
        total = EXACT.add(total, value)
    return total if name == "sum" else EXACT.divide(total, Decimal(len(values)))


OPERATIONS = {"+": EXACT.add, "-": EXACT.subtract, "*": EXACT.multiply, "/": EXACT.divide}


def pairwise(sign, left, right):
    operation = OPERATIONS[sign]
    return [None if one is None or other is None else operation(one, other) for one, other in zip(left, right)]


def text_of_number(number, scale):
    """A whole number of so many decimals as `text_of` spells its value."""
    if not scale:
        return str(number)
    digits = str(abs(number)).zfill(scale + 1)
    text = f"{digits[:-scale]}.{digits[-scale:]}".rstrip("0").rstrip(".")
    return f"-{text}" if number < 0 else text


def text_of(value):
    """A value as Prometheus spells it: all its digits where it is exact, else those of a double."""
    if not value.is_finite():
        return "NaN" if value.is_nan() else "+Inf" if value > 0 else "-Inf"
    text = str(value)
    if "E" not in text and len(text) <= 40:
        return text.rstrip("0").rstrip(".") if "." in text else text
    if len(value.as_tuple().digits) > 40 or abs(value.adjusted()) > 40 and value:
        text = repr(float(value))
        return text.replace("inf", "Inf") if text[0] == "-" else text.replace("inf", "+Inf")
    text = format(value, "f")
    return text.rstrip("0").rstrip(".") if "." in text else text
