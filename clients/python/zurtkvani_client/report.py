"""What an import did with each row and value: how many of each kind, and the first of them."""
from operator import itemgetter

SHOWN = 3


class Report:
    """Counts by kind, with the first places of each."""

    def __init__(self):
        self.rows = self.left_out = 0
        self.counts, self.first = {}, {}

    def note(self, kind, place, what):
        """Counts one of a kind; the first ones keep their place, and what is said of them."""
        self.count(kind, 1)
        if self.counts[kind] <= SHOWN:
            self.first.setdefault(kind, []).append((place, str(what)))

    def count(self, kind, number):
        self.counts[kind] = self.counts.get(kind, 0) + number

    def lines(self):
        """A line for each kind, and behind it one for each of its first places."""
        for kind, count in self.counts.items():
            yield f"{kind}: {count:,}"
            for (name, line), words in self.first[kind]:
                yield f"  {name}, line {line}: {words}"


class Notes:
    """What comes of the rows of a block of a file, noted column by column, and told to a report row by row."""

    def __init__(self, report, name):
        self.report, self.name, self.first, self.others = report, name, [], []

    def note(self, kind, lines, found, say):
        """Notes a kind of the rows at some rising indices; `lines` are the numbers of all, and `say` gives the words for an index."""
        self.first += [(lines[at], kind, say(at)) for at in found[:SHOWN]]
        self.others.append((kind, len(found[SHOWN:])))

    def leave_out(self, kind, lines, found, say):
        """Notes what is left out without being asked to."""
        self.report.left_out += len(found)
        self.note(kind, lines, found, say)

    def tell(self):
        for line, kind, words in sorted(self.first, key=itemgetter(0)):
            self.report.note(kind, (self.name, line), words)
        for kind, number in self.others:
            if number:
                self.report.count(kind, number)
