"""The part of PromQL that the gateway understands, from text to a tree."""
import collections
import re
from decimal import Decimal

from ..unfit import Unfit
from .labels import NAME
from .matching import Matcher

UNDERSTOOD = (
    "understood are selectors by name and labels (=, !=, =~, !~) with a range as [5m], min_over_time, max_over_time, last_over_time, "
    "avg_over_time, sum_over_time, count_over_time, the aggregations sum, min, max, avg and count with by or without, numbers, and + - * / "
    "between these"
)
Number = collections.namedtuple("Number", "value")
Selector = collections.namedtuple("Selector", "matchers range")  # the range in nanoseconds, or None
Call = collections.namedtuple("Call", "name selector")
Aggregate = collections.namedtuple("Aggregate", "name is_by labels inner")
Binary = collections.namedtuple("Binary", "sign left right")

FUNCTIONS = ("min_over_time", "max_over_time", "last_over_time", "avg_over_time", "sum_over_time", "count_over_time")
AGGREGATIONS = ("sum", "min", "max", "avg", "count")
SIZES = {"ms": 10**6, "s": 10**9, "m": 60 * 10**9, "h": 3600 * 10**9, "d": 86_400 * 10**9, "w": 7 * 86_400 * 10**9, "y": 365 * 86_400 * 10**9}
TOKEN = re.compile(
    r"""\s*(?:
    (?P<duration>(?:\d+(?:ms|[smhdwy]))+)(?![a-zA-Z0-9_])
    |(?P<number>0x[0-9a-fA-F]+|(?:\d+\.?\d*|\.\d+)(?:[eE][+-]?\d+)?)(?![a-zA-Z_])
    |(?P<word>[a-zA-Z_:][a-zA-Z0-9_:]*)
    |(?P<text>"(?:[^"\\\n]|\\.)*"|'(?:[^'\\\n]|\\.)*'|`[^`]*`)
    |(?P<sign>=~|!~|!=|==|>=|<=|[-+*/%^(){}\[\],=<>@:])
    )""",
    re.ASCII | re.VERBOSE,
)
PIECE = re.compile(r"(\d+)(ms|[smhdwy])", re.ASCII)
ESCAPE = re.compile(r"\\(x[0-9a-fA-F]{2}|u[0-9a-fA-F]{4}|U[0-9a-fA-F]{8}|[0-7]{3}|.)", re.DOTALL)
ESCAPES = {"n": "\n", "t": "\t", "r": "\r", "a": "\a", "b": "\b", "f": "\f", "v": "\v", "\\": "\\", '"': '"', "'": "'"}
MOST_DEPTH, MOST_SIGNS = 50, 100
MOST_TEXT = 20_000
LONGEST = 10**18  # nanoseconds of a range or a step: 31 years


class Wrong(Exception):
    """Why a text is no query that is understood."""


def duration_of(text):
    """The nanoseconds of a duration as Prometheus has it: 1h30m."""
    pieces = PIECE.findall(text)
    if "".join(map("".join, pieces)) != text or not pieces:
        raise Wrong(f"{text!r} is no duration, as 5m or 1h30m")
    length = sum(int(count) * SIZES[unit] for count, unit in pieces)
    if not 0 < length <= LONGEST:
        raise Wrong(f"a duration is above 0 and at most {LONGEST // 10**9:,} seconds")
    return length


def unquoted(text):
    """What a quoted text holds."""
    if text[0] == "`":
        return text[1:-1]

    def sign(match):
        code = match[1]
        if code[0] in "xuU" and len(code) > 1:
            return chr(int(code[1:], 16))
        if len(code) == 3:
            return chr(int(code, 8))
        if code not in ESCAPES:
            raise Wrong(f"\\{code} is no escape")
        return ESCAPES[code]

    try:
        return ESCAPE.sub(sign, text[1:-1])
    except (ValueError, OverflowError):
        raise Wrong(f"{text} names no sign") from None


def tokens_of(text):
    """The tokens of a text: triples of a kind, its text and where it begins."""
    if len(text) > MOST_TEXT:
        raise Wrong(f"a query has at most {MOST_TEXT:,} signs")
    at, found = 0, []
    while text[at:].strip():
        match = TOKEN.match(text, at)
        if not match:
            raise Wrong(f"at {at + 1}: {text[at:at + 20].strip()!r} isn't understood; {UNDERSTOOD}")
        found.append((match.lastgroup, match[match.lastgroup], match.start(match.lastgroup)))
        at = match.end()
    return found + [("end", "", len(text))]


class Parser:
    """Reads a query from its tokens."""

    def __init__(self, text):
        self.tokens, self.at, self.depth = tokens_of(text), 0, 0
        if sum(kind == "sign" and sign in ("+", "-", "*", "/") for kind, sign, _ in self.tokens) > MOST_SIGNS:
            raise Wrong(f"a query has at most {MOST_SIGNS} of + - * /")

    @property
    def next(self):
        return self.tokens[self.at]

    def take(self, *wanted):
        """Takes the next token where it is one of these signs or words; gives its text, or None."""
        kind, text, _ = self.next
        if text.lower() in wanted and kind in ("sign", "word"):
            self.at += 1
            return text.lower()
        return None

    def need(self, *wanted):
        return self.take(*wanted) or self.fail(f"{' or '.join(wanted)} is awaited")

    def fail(self, why):
        _, text, place = self.next
        raise Wrong(f"at {place + 1}: {repr(text) if text else 'the end'}: {why}; {UNDERSTOOD}")

    def whole(self):
        tree = self.sum()
        if self.next[0] != "end":
            self.fail("isn't understood here")
        return tree

    def sum(self):
        self.depth += 1
        if self.depth > MOST_DEPTH:
            self.fail("too deep")
        left = self.product()
        while sign := self.take("+", "-"):
            left = Binary(sign, left, self.product())
        self.depth -= 1
        return left

    def product(self):
        left = self.signed()
        while sign := self.take("*", "/"):
            left = Binary(sign, left, self.signed())
        return left

    def signed(self):
        negative = False
        while sign := self.take("+", "-"):
            negative ^= sign == "-"
        inner = self.single()
        return Binary("*", Number(Decimal(-1)), inner) if negative else inner

    def single(self):
        kind, text, _ = self.next
        if self.take("("):
            inner = self.sum()
            self.need(")")
            return inner
        if kind == "number":
            self.at += 1
            return Number(Decimal(int(text, 16)) if text[:2] == "0x" else Decimal(text))
        if kind == "word" and self.tokens[self.at + 1][1] in ("(", "by", "without"):
            return self.called(text.lower())
        if kind == "word" or text == "{":
            return self.selector()
        return self.fail("isn't understood here")

    def called(self, name):
        if name not in FUNCTIONS + AGGREGATIONS:
            self.fail("isn't a function that is understood")
        self.at += 1
        if name in FUNCTIONS:
            self.need("(")
            selector = self.selector()
            self.need(")")
            if selector.range is None:
                self.fail(f"{name} wants a range, as in {name}(temperature[5m])")
            return Call(name, selector)
        way = self.take("by", "without")
        labels = self.grouping() if way else ()
        self.need("(")
        inner = self.sum()
        self.need(")")
        if not way and (way := self.take("by", "without")):
            labels = self.grouping()
        return Aggregate(name, way != "without", labels, inner)

    def grouping(self):
        self.need("(")
        labels = []
        while not self.take(")"):
            labels.append(self.label())
            if not self.take(","):
                self.need(")")
                break
        return tuple(labels)

    def label(self):
        kind, text, _ = self.next
        if kind not in ("word", "text"):
            self.fail("a label is awaited")
        self.at += 1
        return unquoted(text) if kind == "text" else text

    def selector(self):
        kind, text, _ = self.next
        matchers = []
        if kind == "word":
            self.at += 1
            matchers.append(Matcher(NAME, "=", text))
        if self.take("{"):
            while not self.take("}"):
                matchers.append(self.matcher())
                if not self.take(","):
                    self.need("}")
                    break
        if all(matcher.accepts("") for matcher in matchers):
            self.fail("a selector names one value at least that isn't empty")
        return Selector(tuple(matchers), self.range())

    def matcher(self):
        is_text = self.next[0] == "text"
        label = self.label()
        if is_text and self.next[1] in (",", "}"):
            return Matcher(NAME, "=", label)
        sign = self.need("=", "!=", "=~", "!~")
        kind, text, _ = self.next
        if kind != "text":
            self.fail("a text in quotes is awaited")
        self.at += 1
        return Matcher(label, sign, unquoted(text))

    def range(self):
        if not self.take("["):
            return None
        kind, text, _ = self.next
        if kind != "duration":
            self.fail("a duration is awaited, as 5m")
        self.at += 1
        self.need("]")
        return duration_of(text)


def parse(text):
    """The tree of a query. Raises Wrong."""
    try:
        return Parser(text).whole()
    except Unfit as why:
        raise Wrong(str(why)) from None


def selector(text):
    """The matchers of a selector without a range."""
    tree = parse(text)
    if not isinstance(tree, Selector) or tree.range is not None:
        raise Wrong(f"{text!r} is no selector, as temperature{{room=\"kitchen\"}}")
    return tree.matchers
