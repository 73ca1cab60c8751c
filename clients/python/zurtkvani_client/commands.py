"""Runs of the program's commands that are over before anything else is asked of the store."""
import subprocess
import tempfile

from .run import Listener, start


class Output:
    """What a command of the program over a store sent for some input, which is over then. It stands in a temporary file until it is read."""

    def __init__(self, program, path, *words, given=b""):
        self.sent = tempfile.TemporaryFile()
        with tempfile.TemporaryFile() as source:
            source.write(given)
            source.seek(0)
            # Behind two hyphens a time below 0 is no option.
            run = [program, path, "--", *words]
            try:
                child = start(run, stdin=source, stdout=self.sent, stderr=subprocess.PIPE)
            except OSError:
                self.sent.close()
                raise
            with child:
                self.end = Listener(child, words[0], path).end()
        self.sent.seek(0)

    def lines(self):
        """Its lines. Where the command failed Ended is raised behind the last one."""
        with self.sent:
            for line in self.sent:
                yield line.decode()
        if self.end.status:
            raise self.end

    def read(self):
        """All of it. Raises Ended where the command failed."""
        with self.sent:
            if self.end.status:
                raise self.end
            return self.sent.read()
