"""The scale of a series, its number of decimals, found from its values."""
from decimal import Decimal

MOST_SCALE = 9
LASTING = 12  # of a value with more digits, a float as a rule, so many count


def find_scale(values):
    """The most decimals that the values, of class Decimal, have; at most 9, and so few that the greatest value keeps 17 digits at most."""
    scale, places = 0, 0
    for value in values:
        if len(value.as_tuple().digits) > LASTING + 1:
            value = Decimal(f"{value:.{LASTING}g}").normalize()
        scale = max(scale, -value.as_tuple().exponent)
        places = max(places, value.adjusted() + 1)
    return max(0, min(scale, MOST_SCALE, 17 - places))
