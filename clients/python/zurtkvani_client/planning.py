"""What an import does, found from the first rows of its first file and the words of the command line: the columns, the grids and the scales."""
import os
from itertools import islice

from . import columns, timestamps
from .decimals import MISSING, decimal_of
from .grids import Grid, find_grid
from .scales import find_scale
from .set_lines import SetLines
from .store import Store
from .store_file import size_for
from .timestamps import UNITS, TimeReader
from .unfit import Unfit

SAMPLE = 20_000  # rows
PASSED = "column passed over"


class Target:
    """A series that takes the values of a column."""

    def __init__(self, column, scale):
        self.index, self.series, self.scale = column.index, column.series, scale
        self.lines = None
        self.taken = self.missing = 0


class Plan:
    """Reads times by `read_time` in the column `time_index`; `groups` are pairs of a grid and the targets on it. `made` is the size of
    a store that was made for it, or None."""

    def __init__(self, given, store, report):
        self.given, self.store, self.report = given, store, report
        self.groups, self.made = [], None

    def begin(self, sources):
        """Looks at the first rows of the first file; finds the columns and grids, and makes what isn't there."""
        source = sources[0]
        first = next((row for row in source.rows if any(map(str.strip, row[0]))), None)
        if first is None:
            raise Unfit(f"{source.name} has no rows")
        self.line_of_first = first[1]
        self.names = columns.header_of(first[0], source.has_names or self.is_named())
        sample = list(islice(source.rows, SAMPLE))
        if self.names is None:
            sample.insert(0, first)
        source.put_back(sample)
        for other in sources[1:]:
            self.skip_header(other)
        rows = [fields for fields, _ in sample if any(map(str.strip, fields))]
        if not rows:
            raise Unfit(f"{source.name} has no rows behind the names of the columns")
        self.find_columns(rows)
        times = self.sampled_times(rows)
        self.make_series(rows, times, self.rows_in(sources, source, len(sample)))

    def is_named(self):
        """Whether the words of the command line name a column by a name."""
        asked = [self.given.time or "1", *(self.given.columns or ())]
        return not all(word.isdigit() for word in asked)

    def find_columns(self, rows):
        given = self.given
        self.width = count = len(self.names) if self.names else max(map(len, rows))
        zone, form = given.zone, given.form
        self.read_time = TimeReader(given.numbers or "seconds", form, zone)
        asked = columns.index_of(given.time, self.names, count) if given.time else columns.time_column(self.names, rows, self.read_time)
        self.time_index = asked
        if given.numbers is None:
            texts = [fields[asked].strip() for fields in rows if asked < len(fields)]
            numbers = [int(float(text)) for text in texts if timestamps.NUMBER.fullmatch(text)]
            self.read_time = TimeReader(timestamps.unit_of(max(numbers, key=abs, default=0)), form, zone)
        words = given.columns or [str(index + 1) for index in range(count) if index != asked]
        indices = [columns.index_of(word, self.names, count) for word in words]
        self.has_commas = given.decimal_comma or columns.has_decimal_commas(rows, indices)
        kept = [index for index in indices if given.columns or columns.has_values(rows, index, self.spelled)]
        if not kept:
            raise Unfit("no column but that of the times has a number")
        for index in set(indices) - set(kept):
            name = self.names[index] if self.names else index + 1
            self.report.note(PASSED, (given.files[0], self.line_of_first), f"{name}: no field of it is a number")
        self.columns = [columns.Column(index, name) for index, name in zip(kept, self.series_names(kept))]

    def series_names(self, indices):
        names = self.given.series
        if names is None and self.names is None:
            raise Unfit("no row names the columns: name their series, as --series temperature,pressure")
        if names is None:
            names = [columns.series_name(self.names[index]) for index in indices]
        if len(names) != len(indices):
            raise Unfit(f"{len(indices)} columns want as many names: --series names {len(names)}")
        if len(set(names)) < len(names) or not all(name == columns.series_name(name) != "" for name in names):
            rule = "have to differ, and be of 1 to 31 letters, digits, `_`, `-` and `.`"
            raise Unfit(f"the series' names, {', '.join(names)}, {rule}: --series names others")
        return names

    def spelled(self, text):
        """A value's text with a point, where values have commas."""
        return text.replace(",", ".") if self.has_commas else text

    def sampled_times(self, rows):
        texts = [fields[self.time_index] for fields in rows if self.time_index < len(fields)]
        times, unfit = self.read_time.all(texts) if texts else ([], {})
        if len(unfit) == len(times):
            why = unfit[len(texts) - 1] if texts else "no row has the column of the times"
            raise Unfit(f"{why}: {columns.TO_NAME_TIMES}")
        return [time for time in times if time is not None]

    def rows_in(self, sources, source, sampled):
        """About how many rows all files have; None where the size of one isn't known."""
        if source.done() is None or any(other.size is None for other in sources):
            return None
        if source.done() == 1:
            return sampled * sum(other.size for other in sources) // source.size
        return int(sampled * sum(other.size for other in sources) / (source.size * source.done()))

    def make_series(self, rows, times, count):
        """The grid and scale of each column's series; makes those that aren't there, and the store."""
        given = self.given
        there = {series.name: series for series in self.store.series()} if os.path.exists(given.store) else {}
        new = [column for column in self.columns if column.series not in there]
        found = None
        if new:
            start = None if given.start is None else self.read_time(given.start)
            found = find_grid(times, given.snap, given.tolerance, given.step, start, given.unit)
        grids = {}
        for column in self.columns:
            series = there.get(column.series)
            grid = found if series is None else self.grid_of(series)
            scale = self.scale_for(column, rows) if series is None else series.scale
            if series is not None and given.scale not in (None, series.scale):
                raise Unfit(f"the series {series.name} is there with the scale {series.scale}")
            key = (grid.start, grid.step, grid.unit)
            target = Target(column, scale)
            target.lines = SetLines(column.series, grid.step)
            target.is_new = series is None
            grids.setdefault(key, (grid, []))[1].append(target)
        self.groups = list(grids.values())
        self.make_missing(found, times, count)

    def grid_of(self, series):
        unit = self.given.unit or timestamps.unit_of(series.start)
        if self.given.step not in (None, series.step * UNITS[unit]):
            raise Unfit(f"the series {series.name} is there with the step {series.step} {unit}")
        return Grid(series.start, series.step, unit, self.given.snap, self.given.tolerance)

    def scale_for(self, column, rows):
        if self.given.scale is not None:
            return self.given.scale
        values = []
        for text in {fields[column.index].strip() for fields in rows if column.index < len(fields)}:
            if text.lower() not in MISSING:
                try:
                    values.append(decimal_of(self.spelled(text)))
                except Unfit:
                    pass
        return find_scale(values)

    def make_missing(self, grid, times, count):
        """Makes the store and the series that aren't there."""
        new = [(target.series, grid.start, grid.step, target.scale) for _, targets in self.groups for target in targets if target.is_new]
        if self.given.dry_run or not new:
            return
        if os.path.exists(self.given.store):
            with self.store as store:
                for words in new:
                    store.create(*words)
            return
        size = self.given.size or size_for(self.pages_per_row(grid, times), count, len(self.columns))
        self.made = size
        Store.make(self.given.store, size, program=self.given.program, series=new)

    @staticmethod
    def pages_per_row(grid, times):
        """How many pages of 128 slots a row needs for each column, by the first rows."""
        return len({(time - grid.first) // grid.gap // 128 for time in times}) / len(times)

    def skip_header(self, source):
        """Takes the names of the columns from a further file."""
        if self.names is None:
            return
        first = next((fields for fields, _ in source.rows if any(map(str.strip, fields))), None)
        if first is not None and [field.strip() for field in first] != self.names:
            raise Unfit(f"the columns of {source.name} have other names than those of {self.given.files[0]}: import it by itself")
