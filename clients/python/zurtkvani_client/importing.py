"""Takes files of readings into a store, by a plan that their first rows tell.

Some rows are done at once, column by column, so memory doesn't grow with the file; what comes of them, and in which order, is what would
come of them one by one. A reading goes to its slot whatever was stored before, so an import that was cut short is run again and ends as if
it had run once.
"""
from operator import itemgetter

from .decimal_columns import whole_numbers
from .planning import Plan
from .report import Notes, Report
from .set_lines import runs_of
from .sources import Source
from .store import Store
from .timestamps import date_text

# What can come of a row or a value, besides that it is stored as it stands.
ROUNDED, SNAPPED = "rounded, half to even", "moved to a slot"
NO_COLUMN, NO_TIME, NO_VALUE, NO_SLOT = "left out, no such column", "left out, no time", "left out, no value", "left out, no slot"
NO_NAME, TOO_FINE = "left out, fields behind the last column", "left out, more decimals than the series"
REPLACED = "takes the slot of the row before"


class Import:
    """One import, by the words of the command line."""

    def __init__(self, given, progress):
        self.given, self.progress, self.report = given, progress, Report()
        self.store = Store(given.store, program=given.program)
        self.plan = Plan(given, self.store, self.report)

    def run(self):
        """Imports the files, one behind the other."""
        sources = [Source(path, self.given.delimiter, self.given.encoding) for path in self.given.files]
        try:
            self.plan.begin(sources)
            if self.given.dry_run:
                for _ in self.lines(sources):
                    pass
            else:
                with self.store as store:
                    store.send_edits(self.lines(sources))
        finally:
            self.progress.end()
            for source in sources:
                source.close()

    def lines(self, sources):
        """The `set` lines of all rows."""
        self.plan.read_time.before = None  # the rows begin anew
        for source in sources:
            for block in source.blocks():
                self.report.rows += len(block)
                self.progress.show(self.report.rows, source.done())
                yield from self.lines_of(block, Notes(self.report, source.name))
        for _, targets in self.plan.groups:
            for target in targets:
                line = target.lines.line()
                if line:
                    yield line

    def lines_of(self, block, notes):
        """The `set` lines that the rows of a block end, in the order of the rows."""
        width, ended = self.plan.width, []
        if block.most > width:
            far = [at for at, fields in enumerate(block.rows) if any(map(str.strip, fields[width:]))]
            notes.leave_out(NO_NAME, block.lines, far, lambda at: f"it has {block.width(at)} fields")
        timed, times = self.timed(block, notes)
        for grid, targets in self.plan.groups if times else ():
            placed, slot_times = self.placed(grid, timed, times, notes)
            runs = runs_of(slot_times, grid.step)
            for target in targets:
                ended += self.take(target, placed, slot_times, runs, notes)
        notes.tell()
        return [line for _, line in sorted(ended, key=itemgetter(0))]

    def timed(self, block, notes):
        """The rows that have a time, and their times in nanoseconds."""
        index = self.plan.time_index
        block, _ = self.with_field(index, block, block.lines, notes)
        if not block:
            return block, []
        times, unfit = self.plan.read_time.all(block.column(index))
        notes.leave_out(NO_TIME, block.lines, list(unfit), unfit.get)
        kept, times = without(unfit, range(len(block)), times)
        return block.only(kept) if unfit else block, times

    def placed(self, grid, block, times, notes):
        """The rows that have a slot, and the times of the slots."""
        slot_times, moved, unfit = grid.place(times)
        notes.leave_out(NO_SLOT, block.lines, sorted(unfit), unfit.get)
        notes.note(SNAPPED, block.lines, [at for at in moved if at not in unfit], lambda at: date_text(times[at]))
        kept, slot_times = without(unfit, range(len(block)), slot_times)
        return block.only(kept) if unfit else block, slot_times

    def with_field(self, index, block, times, notes):
        """The rows that have a field for a column, and their times."""
        if block.fewest > index:
            return block, times
        short = {at for at in range(len(block)) if block.width(at) <= index}
        notes.leave_out(NO_COLUMN, block.lines, sorted(short), lambda at: f"it has {block.width(at)} fields")
        kept, times = without(short, range(len(block)), times)
        return block.only(kept), times

    def take(self, target, block, slot_times, runs, notes):
        """Takes what rows have for a series; gives the `set` lines that they end, each behind the number of the row's line."""
        block, times = self.with_field(target.index, block, slot_times, notes)
        if not block:
            return []
        texts, lines = block.column(target.index), block.lines
        spelled = [text.replace(",", ".") for text in texts] if self.plan.has_commas else texts
        numbers, rounded, unfit = whole_numbers(spelled, target.scale)
        wrong = [at for at, why in unfit.items() if why]
        target.missing += len(unfit) - len(wrong)
        notes.leave_out(NO_VALUE, lines, wrong, unfit.get)
        if self.given.exact:
            notes.leave_out(TOO_FINE, lines, rounded, lambda at: f"{texts[at]!r} has more than {target.scale} decimals")
            unfit.update(dict.fromkeys(rounded))
        else:
            notes.note(ROUNDED, lines, rounded, texts.__getitem__)
        texts, lines, times, numbers = without(unfit, texts, lines, times, numbers)
        target.taken += len(numbers)
        if len(times) < len(slot_times):
            runs = runs_of(times, target.lines.step)
        ended, replaced = target.lines.add_all(times, numbers, runs)
        note = notes.note if self.given.replace else notes.leave_out
        note(REPLACED, lines, replaced, lambda at: f"{target.series}, {texts[at]}")
        return [(lines[at], line) for at, line in ended]


def without(dropped, *columns):
    """Columns without what stands at some indices."""
    if not dropped:
        return columns
    kept = [at for at in range(len(columns[0])) if at not in dropped]
    return [[column[at] for at in kept] for column in columns]
