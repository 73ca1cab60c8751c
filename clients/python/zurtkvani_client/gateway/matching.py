"""Matchers of labels, as they stand in a selector: =, !=, =~ and !~."""
import re
from re import _constants, _parser

from ..unfit import Unfit

MOST_PATTERN = 2000  # signs of a pattern
MOST_REPEATS = 4  # one behind the other, so that no pattern takes long over a value
SINGLE = {_constants.LITERAL, _constants.NOT_LITERAL, _constants.ANY, _constants.IN}
REPEATS = {_constants.MAX_REPEAT, _constants.MIN_REPEAT}


def repeats_of(parsed):
    """How many parts of a pattern may repeat one behind the other. Raises Unfit for what may take long, and for what Prometheus doesn't have."""
    count = 0
    for kind, held in parsed:
        if kind in REPEATS:
            if [inner for inner, _ in held[2] if inner not in SINGLE] or len(held[2]) != 1:
                raise Unfit("a repeated group isn't understood: one sign, a class or a dot may repeat")
            count += 1
        elif kind is _constants.BRANCH:
            count += max(repeats_of(branch) for branch in held[1])
        elif kind is _constants.SUBPATTERN:
            count += repeats_of(held[3])
        elif kind not in SINGLE and kind is not _constants.AT:
            raise Unfit("a look ahead or behind, or a group that is named again, isn't understood")
    if count > MOST_REPEATS:
        raise Unfit(f"more than {MOST_REPEATS} repeats one behind the other aren't understood")
    return count


def compiled(text):
    """A pattern that has to fit a whole value."""
    try:
        if len(text) > MOST_PATTERN:
            raise Unfit(f"a pattern has at most {MOST_PATTERN} signs")
        repeats_of(_parser.parse(text, re.DOTALL))
        return re.compile(text, re.DOTALL)
    except (re.error, RecursionError, OverflowError) as why:
        raise Unfit(f"{text!r} is no pattern: {why}") from None
    except Unfit as why:
        raise Unfit(f"{text!r}: {why}") from None


class Matcher:
    """One condition on a label. A label that isn't there has an empty value."""

    def __init__(self, label, sign, value):
        self.label, self.sign, self.value = label, sign, value
        self.pattern = compiled(value) if sign in ("=~", "!~") else None
        self.is_wanted = sign in ("=", "=~")

    def accepts(self, value):
        fits = self.pattern.fullmatch(value) is not None if self.pattern else self.value == value
        return fits == self.is_wanted

    def names_one(self):
        """Whether it wants one value that isn't empty."""
        return self.sign == "=" and self.value != ""


def matches(matchers, labels):
    return all(matcher.accepts(labels.get(matcher.label, "")) for matcher in matchers)
