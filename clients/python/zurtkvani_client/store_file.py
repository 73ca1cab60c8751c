"""The file of a store: how large it has to be, and how one is made at once or not at all."""
import operator
import os
import tempfile

from .commands import Output

BLOCK = 4096  # bytes
LEAST_BLOCKS, MOST_BLOCKS = 128, 2**32 - 1
OWN_BLOCKS = 66 + 17  # the journal's and the store's own
UNKNOWN = 2**30  # bytes for a file of rows whose number isn't known


def size_for(pages_per_row, rows, columns):
    """The bytes of a store for so many rows, None where that isn't known, which need so many pages of 128 slots for each of so
    many columns: twice what they take, and at least 4 MiB. The file has holes where nothing is stored, so it takes no more of the
    disk than it holds."""
    if rows is None:
        return UNKNOWN
    pages = int(2.1 * pages_per_row * rows * columns) + 64 * columns
    return BLOCK * min(max(OWN_BLOCKS + pages, 1024), MOST_BLOCKS)


def folder_beside(path):
    """A new folder beside a file, for as long as a `with`."""
    place = os.path.dirname(os.path.abspath(path))
    try:
        return tempfile.TemporaryDirectory(dir=place, prefix=".new-store-")
    except OSError as why:
        raise type(why)(why.errno, why.strerror, place) from None


def make_store(path, size, program, series=()):
    """Makes a new file, of so many bytes, a store with some series, each a name, a start, a step and a scale. The file is there
    once all of it is.

    Raises FileExistsError where the file is there, ValueError where the size isn't one of a store, and Ended where the program can't do it.
    """
    if not LEAST_BLOCKS * BLOCK <= operator.index(size) <= MOST_BLOCKS * BLOCK:
        raise ValueError(f"a store has {LEAST_BLOCKS * BLOCK:,} to {MOST_BLOCKS * BLOCK:,} bytes")
    if not path:
        raise ValueError("the store has no name")
    if os.path.lexists(path):
        raise FileExistsError(f"{path} is there")
    with folder_beside(path) as folder:
        made = os.path.join(folder, "store")
        with open(made, "wb") as file:
            file.truncate(size)
        lines = "".join(f"create {name} {start} {step} {scale}\n" for name, start, step, scale in series)
        Output(program, made, "init").read()
        if Output(program, made, "run", given=lines.encode()).read() != b"done 0\n" * len(series):
            raise ValueError("a series has a name, a start, a step or a scale that none may have")
        os.link(made, path)

