"""Columns of decimals as texts, to the whole numbers that series keep of them, by floats as far as these tell them."""
import re
from itertools import compress, count
from operator import ne

from .decimals import MISSING, MOST, whole_number
from .unfit import Unfit

# Of texts of these signs int and float take those that Decimal takes, and no others.
SIGNS, LONGEST = b"0123456789.+- \n", 64
SPELLED = re.compile(r" *[+-]?(?:\d{1,30}(?:\.\d{0,30})?|\.\d{1,30}) *", re.ASCII).fullmatch
# Two decimals of so many digits at most, which have a float each, never have the same.
DIGITS = 15


def whole_numbers(texts, scale):
    """What `whole_number` gives of each text, None where that has no value; the rising indices of those that it rounds; and by the index
    of one without a value, why, None where nothing stands there."""
    numbers, rounded, left = by_floats(texts, scale)
    unfit = {}
    for at in left:
        try:
            numbers[at], is_rounded = (None, False) if texts[at].strip().lower() in MISSING else whole_number(texts[at], scale)
            unfit.update({at: None} if numbers[at] is None else {})
        except Unfit as why:
            numbers[at], is_rounded, unfit[at] = None, False, why
        if is_rounded:
            rounded.append(at)
    return numbers, sorted(rounded), unfit


def by_floats(texts, scale):
    """The same as far as floats tell it: the numbers, which of them are rounded, and the rising indices of those that are left."""
    for is_odd in (None, lambda text: not text):
        try:
            return without_odd(texts, scale, is_odd)
        except ValueError:
            pass
    return without_odd(texts, scale, lambda text: not SPELLED(text))


def without_odd(texts, scale, is_odd):
    """What `by_floats` gives, where the odd texts are left. Raises ValueError where another isn't digits and a point alone."""
    odd = [at for at, text in enumerate(texts) if is_odd(text)] if is_odd else []
    if odd:
        texts = list(texts)
        for at in odd:
            texts[at] = "0"
    spelled, longest = "\n".join(texts).encode("ascii"), max(map(len, texts))
    if longest > LONGEST or spelled.translate(None, SIGNS):
        raise ValueError
    numbers, rounded, left = from_floats(texts, scale, longest) if b"." in spelled else from_integers(texts, scale)
    return numbers, rounded, sorted({*odd, *left})


def from_integers(texts, scale):
    numbers = [int(text) * 10**scale for text in texts]
    return numbers, [], [at for at, number in enumerate(numbers) if abs(number) > MOST]


def from_floats(texts, scale, longest):
    """The numbers, which of them are rounded, and the indices of those of which this isn't sure."""
    floats, factor = list(map(float, texts)), 10.0**scale
    numbers = [round(value * factor) for value in floats]
    rounded, left, most, room = [], [], 10**DIGITS, DIGITS + 1  # room for the point too
    if longest > room:
        left += [at for at, text in enumerate(texts) if len(text) > room]
    if longest + scale > DIGITS and (max(numbers) >= most or min(numbers) <= -most):
        left += [at for at, number in enumerate(numbers) if abs(number) >= most]
    # Where the number has another float than the text it isn't the same decimal, and where its float is the same it is, but for those left.
    differing = list(compress(count(), map(ne, floats, [number / factor for number in numbers])))
    for at in differing:
        product = floats[at] * factor
        # A product is off by less than so much of itself.
        is_sure = abs(product - numbers[at]) + abs(product) * 1e-15 < 0.5
        (rounded if is_sure else left).append(at)
    return numbers, rounded, set(left).difference(rounded)
