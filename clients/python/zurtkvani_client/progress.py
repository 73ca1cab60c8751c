"""A bar on a terminal: how far an import is, how fast, and how long it may take."""
import sys
import time

WIDTH = 30
EVERY = 0.2  # seconds between two looks


class Progress:
    """Shows a bar on standard error where that is a terminal and nothing is shown there already, and nothing elsewhere."""

    def __init__(self, is_free=True):
        self.stream = sys.stderr
        self.is_shown = is_free and bool(self.stream) and self.stream.isatty()
        self.begun = self.shown = time.monotonic()

    def show(self, rows, part):
        """Shows how many rows were read, and which part of the input, from 0 to 1 or None where that isn't known."""
        now = time.monotonic()
        if not self.is_shown or now - self.shown < EVERY:
            return
        self.shown = now
        self.stream.write("\r\x1b[K" + bar(rows, part, now - self.begun))
        self.stream.flush()

    def end(self):
        """Takes the bar away, until the next look."""
        if self.is_shown:
            self.stream.write("\r\x1b[K")
            self.stream.flush()


def bar(rows, part, seconds):
    """One line of text."""
    told = f"{rows:,} rows, {rows / max(seconds, 1e-9):,.0f} a second"
    if not part:
        return told
    full, left = int(WIDTH * part), int(seconds * (1 - part) / part)
    return f"[{'#' * full}{'.' * (WIDTH - full)}] {part:4.0%}  {told}, {left // 60}:{left % 60:02} left"
