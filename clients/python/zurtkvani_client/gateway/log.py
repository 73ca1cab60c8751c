"""What the gateway tells of itself: a line of JSON on standard error for each event."""
import datetime
import json
import logging
import sys


def tell(event, level="info", **fields):
    """Writes one line: the time in UTC, the level, the event in words, and what belongs to it."""
    now = datetime.datetime.now(datetime.timezone.utc).isoformat(timespec="milliseconds").replace("+00:00", "Z")
    line = json.dumps({"time": now, "level": level, "event": event, **fields}, ensure_ascii=False, default=str)
    try:
        sys.stderr.write(line + "\n")
        sys.stderr.flush()
    except OSError:
        pass  # nobody reads the log; that is no reason to stop


class LogLines(logging.Handler):
    """What the libraries log, as lines of the same kind."""

    def emit(self, record):
        why = {"why": repr(record.exc_info[1])} if record.exc_info else {}
        tell(record.getMessage(), record.levelname.lower(), of=record.name, **why)
