"""What several runs of golden/ share: stores of the least size, request lines that append, frames, and the pictures of a day of readings."""
import os
import struct
import sys

from golden_runs import GOLDEN, bytes_of
from store_format import BLOCK, FIRST_PAGE, journal_of, pages_of, store_of

BLOCKS = 128  # the fewest of a store
PAGES = BLOCKS - FIRST_PAGE
SERIES = ("a", 0, 1, 0, [4, 7, 2, None])
TREE = 17  # the page of its tree
LINE = 256  # the most values of an append
HEAD = b"P4\n675 300\n"
# 20.00 in the first half of the day, and 25.00 in the second one.
STEP = (
    bytes(42) + b"\x7f" + b"\xff" * 41 + b"\xe0"
    + (bytes(42) + b"\x40" + bytes(42)) * 298
    + b"\xff" * 42 + b"\xc0" + bytes(42)
)
# An hour of one value.
FLAT = bytes(85 * 299) + b"\xff" * 84 + b"\xe0"


def append_lines(name, begin, end):
    """The lines that append the numbers from one up to the other."""
    for at in range(begin, end, LINE):
        yield " ".join(["append", name, *map(str, range(at, min(at + LINE, end)))])


def write_views(count=3, session=1):
    """Writes what `run` answers to the first so many of a session's view of the day, zoom to an hour and pan by an hour."""
    for length, picture in [(17213, STEP), (38788, FLAT), (38738, FLAT)][:count]:
        sys.stdout.buffer.write(b"view %d sent %d\n" % (session, length) + HEAD + picture)


def write_pages(*book, pages=PAGES):
    """Writes the pages in use of a store of this book, where none was freed."""
    sys.stdout.buffer.write(b"".join(pages_of(book, pages)))


def write_damaged_store(*book, page, offset, byte, version=2):
    """Writes a store of this book, but for one byte of a page."""
    store = bytearray(store_of(book, BLOCKS, version))
    store[BLOCK * (FIRST_PAGE + page) + offset] = byte
    sys.stdout.buffer.write(store)


def write_old_store(*book):
    """Writes a store of this book in version 1, which an opening brings to version 2."""
    sys.stdout.buffer.write(store_of(book, BLOCKS, version=1))


def write_old_store_behind_journal():
    """Writes an empty store of version 1, behind an open gate and a journal of the pages that SERIES changes there."""
    pages = pages_of([SERIES], PAGES, version=1)
    journal = journal_of({number: pages[number] for number in (TREE, 0, 1)})
    sys.stdout.buffer.write(journal + store_of([], BLOCKS, version=1)[len(journal) :])


def write_store_with_damaged_tree():
    """Writes a store of SERIES, but the page of its tree has another kind."""
    write_damaged_store(SERIES, page=TREE, offset=0, byte=5)


def write_store_with_damaged_catalog():
    """Writes a store of SERIES, but page 3, which has no series, has a byte that isn't 0."""
    write_damaged_store(SERIES, page=3, offset=100, byte=1)


def write_store_with_page_damaged_far_down():
    """Writes a store of 500 values, but page 19, the third of the lowest pages, with the slots 256 to 383, has a reserved byte that isn't 0."""
    write_damaged_store(("a", 0, 1, 0, list(range(500))), page=19, offset=4000, byte=1)


def write_store_with_freed_page(*book, freed):
    """Writes a store of this book, and behind its pages one that was freed and begins with these bytes."""
    store = bytearray(store_of(book, BLOCKS))
    page = len(store) // BLOCK - FIRST_PAGE
    struct.pack_into(">5I", store, BLOCK * FIRST_PAGE + 8, PAGES, page + 1, page, 1, len(book))
    sys.stdout.buffer.write(store + freed.ljust(BLOCK, b"\0"))


def write_store_behind_journal():
    """Writes an empty store, behind an open gate and a journal of the pages that SERIES changes."""
    pages = pages_of([SERIES], PAGES)
    journal = journal_of({number: pages[number] for number in (TREE, 0, 1)})
    sys.stdout.buffer.write(journal + store_of([], BLOCKS)[len(journal) :])


def store_with_its_gate_open():
    """A store of SERIES as its last commit left it, but its gate is open again."""
    pages = pages_of([SERIES], PAGES)
    journal = journal_of({number: pages[number] for number in (TREE, 0, 1)})
    return bytearray(journal + store_of([SERIES], BLOCKS)[len(journal) :])


def frames_of_first_view():
    """The frames of `create`, `append`, `open` and a view of SERIES, as golden/serve/first_view has them."""
    return bytearray(bytes_of(os.path.join(GOLDEN, "serve/first_view"), "stdout"))


def write_changed_frames(offset, *changed):
    """Writes these frames with other bytes from an offset on."""
    frames = frames_of_first_view()
    frames[offset : offset + len(changed)] = changed
    sys.stdout.buffer.write(frames)
