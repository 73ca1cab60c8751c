"""How a new series is made: by the first rule that its name matches."""
import collections
import fnmatch

from ..grids import LAST_SLOT, unit_for
from ..timestamps import DAY, UNITS, unit_of
from ..unfit import Unfit
from .labels import NAME, text_of

FARTHEST = 2**63  # nanoseconds from 1970: the year 2262
Grid = collections.namedtuple("Grid", "start step scale")  # of a series as `create` takes it


def fits(match, key):
    """Whether a pattern with * and ? fits a series' name, or all of it as a selector."""
    return fnmatch.fnmatchcase(dict(key).get(NAME, ""), match) or fnmatch.fnmatchcase(text_of(key), match)


def rule_for(rules, key):
    """The first rule that fits a series."""
    return next(rule for rule in rules if fits(rule.match, key))


def grid_for(rule, time):
    """The grid of a new series whose first point has this time in nanoseconds. Raises Unfit where there is none.

    Where the rule names no start it is so long before the time as the rule says, at the beginning of a day of UTC where days are whole steps.
    """
    if not -FARTHEST <= time < FARTHEST:
        raise Unfit("a time is too far from 1970: see that its precision is right")
    even = DAY if DAY % rule.step == 0 else rule.step
    start = rule.start if rule.start is not None else (time - rule.before) // even * even
    unit = unit_for(start, rule.step)
    grid = Grid(start // UNITS[unit], rule.step // UNITS[unit], rule.scale)
    if unit_of(grid.start) != unit:
        raise Unfit(f"a start of {grid.start} {unit} would be taken as {unit_of(grid.start)}: name a later start, or a step of whole seconds")
    if not 0 <= (time - start) // rule.step <= LAST_SLOT:
        raise Unfit("the first point lies before the rule's start, or too far behind it")
    return grid
