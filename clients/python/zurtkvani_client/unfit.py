"""Why a text is no time or no value, or has no place in a series."""


class Unfit(Exception):
    """Says in words what doesn't fit."""
