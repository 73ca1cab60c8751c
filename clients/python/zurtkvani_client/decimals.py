"""Decimals as texts, and the whole numbers that a series keeps of them: a value times 10^scale."""
from decimal import MAX_EMAX, MAX_PREC, MIN_EMIN, ROUND_HALF_EVEN, Context, Decimal, InvalidOperation

from .unfit import Unfit

MOST = 10**18  # the greatest size of a stored value
MISSING = frozenset({"", "-", "nan", "na", "null", "none"})  # texts, in small letters, of a time without a reading
# No step of a conversion rounds but the one that is asked to.
EXACT = Context(prec=MAX_PREC, Emax=MAX_EMAX, Emin=MIN_EMIN, rounding=ROUND_HALF_EVEN)


def decimal_of(text):
    """The decimal that a text spells: digits with a point or an exponent or neither. Raises Unfit for anything else."""
    try:
        value = Decimal(text)
    except InvalidOperation:
        raise Unfit(f"{text!r} is no value") from None
    if not value.is_finite() or "_" in text:
        raise Unfit(f"{text!r} is no value")
    return value


def whole_number(text, scale):
    """The value of a text times 10^scale as a whole number, rounded half to even, and whether that changed it.

    Raises Unfit where the text is no value, or the number is more than 10^18 in size.
    """
    # Most texts are digits, and a point between them.
    unsigned = text[1:] if text[:1] == "-" else text
    whole, _, decimals = unsigned.partition(".")
    if len(decimals) <= scale and len(whole) + scale <= 18 and (whole + decimals).isdecimal():
        number = int(whole + decimals) * 10 ** (scale - len(decimals))
        return (number if unsigned is text else -number), False
    try:
        shifted = Decimal(text).scaleb(scale, EXACT)
        rounded = shifted.to_integral_value(context=EXACT)
        number = int(rounded) if rounded.adjusted() < 20 or not rounded else 10**20
    except (InvalidOperation, OverflowError, ValueError):
        raise Unfit(f"{text!r} is no value") from None
    if not -MOST <= number <= MOST:
        raise Unfit(f"{text!r} is too large")
    if "_" in text:
        raise Unfit(f"{text!r} is no value")
    return number, rounded != shifted


def decimal_text(number, scale):
    """A whole number of a series as a decimal, with as many decimals as the scale."""
    digits = str(abs(number)).rjust(scale + 1, "0")
    return ("-" if number < 0 else "") + digits[: len(digits) - scale] + (f".{digits[-scale:]}" if scale else "")
