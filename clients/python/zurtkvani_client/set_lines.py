"""Readings of a series, gathered into the `set` lines that store them."""

MOST_VALUES = 256  # of one line
ALIGNED = 128  # slots of a leaf of a series' tree, in whose pages values lie
TAKEN = object()  # where a reading took the slot of the one before


def line_of(name, time, values):
    """The line that stores values from a time on, each a step behind the one before."""
    return f"set {name} {time} {' '.join(map(str, values))}".encode()


def lines_by_slots(name, start, step, values):
    """The lines that store values by their slots. A line that isn't the last of its run ends where a leaf does, so that few pages are touched."""
    if len(values) < 2:
        for slot, value in values.items():
            yield f"set {name} {start + slot * step} {value}".encode()
        return
    slots = sorted(values)
    is_whole = slots[-1] - slots[0] == len(slots) - 1
    ends = [] if is_whole else [at for at, (slot, later) in enumerate(zip(slots, slots[1:]), 1) if later - slot != 1]
    begin = 0
    for end in (*ends, len(slots)):
        while begin < end:
            first = slots[begin]
            count = min(end - begin, MOST_VALUES - first % ALIGNED)
            yield line_of(name, start + first * step, map(values.__getitem__, slots[begin : begin + count]))
            begin += count


class SetLines:
    """Gathers readings of one series: a line has up to 256, each a step behind the one before."""

    def __init__(self, name, step):
        self.name, self.step = name, step
        self.first, self.next, self.values = None, None, []

    def add(self, time, value):
        """Takes a reading; gives the line that it ends, or None; TAKEN where the one before had its slot, and is replaced."""
        values = self.values
        if time == self.next and len(values) < MOST_VALUES:
            values.append(value)
            self.next = time + self.step
            return None
        if values and time + self.step == self.next:
            values[-1] = value
            return TAKEN
        line = self.line()
        self.first, self.next, self.values = time, time + self.step, [value]
        return line

    def add_all(self, times, values, runs):
        """Takes readings one after the other, of which `runs` tells those that follow each other. Gives pairs of the index of a reading
        and the line that it ended, and the indices of those that took the slot of the one before."""
        ended, replaced = [], []
        for begin, end in runs:
            while begin < end:
                line = self.add(times[begin], values[begin])
                if line is TAKEN:
                    replaced.append(begin)
                elif line:
                    ended.append((begin, line))
                begin, first = min(end, begin + 1 + MOST_VALUES - len(self.values)), begin + 1
                self.values += values[first:begin]
                self.next += self.step * (begin - first)
        return ended, replaced

    def line(self):
        """The line of what was gathered last, or None where that is nothing. It begins anew then."""
        if not self.values:
            return None
        line = line_of(self.name, self.first, self.values)
        self.values = []
        return line


def runs_of(times, step):
    """The parts of times that are a step from each other, as pairs of the index of the first and that behind the last."""
    if not times:
        return []
    if times == list(range(times[0], times[0] + len(times) * step, step)):
        return [(0, len(times))]
    begins = [at for at, (one, next_one) in enumerate(zip(times, times[1:]), 1) if next_one - one != step]
    return list(zip([0, *begins], [*begins, len(times)]))
