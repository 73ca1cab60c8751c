"""Axes beside a picture, as an SVG in which the picture stands pixel for pixel."""
import base64
from datetime import datetime, timedelta
from xml.sax.saxutils import escape

from .timestamps import DAY, EPOCH, UNITS, nanoseconds_of

LEFT, RIGHT, TOP, BOTTOM = 90, 40, 24, 34  # pixels around the picture
SECOND, MINUTE, HOUR = 10**9, 60 * 10**9, 3600 * 10**9
TIME_STEPS = [
    *(digit * 10**power for power in range(3, 9) for digit in (1, 2, 5)),
    *(count * unit for unit in (SECOND, MINUTE) for count in (1, 2, 5, 10, 15, 30)),
    *(count * HOUR for count in (1, 2, 3, 6, 12)),
    *(count * DAY for count in (1, 2, 7, 14)),
]


def value_ticks(low, high, most=6):
    """Even whole numbers from low to high, at most so many, as 1, 2 or 5 times a power of ten apart."""
    steps = (digit * 10**power for power in range(20) for digit in (1, 2, 5))
    step = next(step for step in steps if (high - low) // step < most)
    return range(-(-low // step) * step, high + 1, step)


def time_ticks(t0, t1, most=8):
    """Even moments from t0 to below t1, in nanoseconds since 1970, at most about so many."""
    step = next((step for step in TIME_STEPS if (t1 - t0) // step < most), None)
    if step is not None:
        return list(range(-(-t0 // step) * step, t1, step))
    try:
        return list(calendar_ticks(EPOCH + timedelta(microseconds=t0 // 1000), EPOCH + timedelta(microseconds=t1 // 1000), most))
    except (OverflowError, ValueError):
        return []


def calendar_ticks(begin, end, most):
    """First days of months or years."""
    months = (end.year - begin.year) * 12 + end.month - begin.month
    steps = (count * unit for unit in (1, 12, 120, 1200) for count in (1, 3, 6) if unit == 1 or count != 3 or unit > 12)
    step = next((step for step in steps if months // step < most), 12_000)
    first = begin.year * 12 // step * step
    for month in range(first, end.year * 12 + end.month, step):
        day = datetime(max(month // 12, 1), month % 12 + 1, 1)
        if begin <= day < end:
            yield nanoseconds_of(day - EPOCH)


def time_label(time, step):
    """A moment, as fine as the step between two of them wants it; seconds since 1970 where it is no date."""
    try:
        date = EPOCH + timedelta(microseconds=time // 1000)
    except OverflowError:
        return str(time // SECOND)
    if step >= DAY or time % DAY == 0:
        return date.strftime("%Y-%m-%d")
    if step >= MINUTE:
        return date.strftime("%H:%M")
    return date.strftime("%H:%M:%S") if step >= SECOND else date.strftime("%H:%M:%S.%f").rstrip("0")


def value_label(number, scale):
    """A whole number of a series as a decimal, without zeros at its end."""
    text = f"{number / 10**scale:.{scale}f}"
    return text.rstrip("0").rstrip(".") if "." in text else text


def svg(picture):
    """The picture with axes: real values at its left, dates in UTC below it, the series' name above."""
    low, high = picture.lo, picture.hi
    scale = picture.series.scale if picture.series else 0
    parts = [frame(picture)]
    for number in value_ticks(low, high):
        y = TOP + picture.h - 1 - picture.height(number) + 0.5
        parts.append(tick(LEFT - 6, y, LEFT - 1, y, LEFT - 9, y + 4, "end", value_label(number, scale)))
    t0, t1 = (time * UNITS[picture.unit] for time in picture.window)
    moments = time_ticks(t0, t1)
    step = min((later - earlier for earlier, later in zip(moments, moments[1:])), default=1)
    for moment in moments:
        x = LEFT + (moment - t0) * picture.w // (t1 - t0) + 0.5
        y = TOP + picture.h
        parts.append(tick(x, y + 1, x, y + 6, x, y + 20, "middle", time_label(moment, step)))
    return (
        f'<svg xmlns="http://www.w3.org/2000/svg" width="{picture.w + LEFT + RIGHT}" height="{picture.h + TOP + BOTTOM}" '
        'font-family="sans-serif" font-size="12">' + "".join(parts) + "</svg>"
    )


def frame(picture):
    """The picture itself, a line around it, and the series' name."""
    data = base64.b64encode(picture.to_png()).decode()
    name = escape(picture.series.name) if picture.series else ""
    return (
        '<rect width="100%" height="100%" fill="white"/>'
        f'<image x="{LEFT}" y="{TOP}" width="{picture.w}" height="{picture.h}" style="image-rendering:pixelated" '
        f'href="data:image/png;base64,{data}"/>'
        f'<rect x="{LEFT - 0.5}" y="{TOP - 0.5}" width="{picture.w + 1}" height="{picture.h + 1}" fill="none" stroke="gray"/>'
        f'<text x="{LEFT}" y="{TOP - 8}">{name}</text>'
    )


def tick(x1, y1, x2, y2, x, y, anchor, label):
    """A short line, and its label at x and y."""
    return (
        f'<line x1="{x1}" y1="{y1}" x2="{x2}" y2="{y2}" stroke="gray"/>'
        f'<text x="{x}" y="{y}" text-anchor="{anchor}">{escape(label)}</text>'
    )
