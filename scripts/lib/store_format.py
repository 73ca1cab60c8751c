"""The bytes of a store, spelled and read by docs/FORMATS.md alone, for golden runs and scripts/gate/crash.

A series is a tuple of a name, a start, a step, a scale and a list of slots, each a whole number or None; a book is a list
of series. A span is a pair of the least and the greatest stored value, or None where nothing is stored. Stores are spelled in
version 2, where no other is asked for, and read in both.
"""
import functools
import struct

import built_program
from built_program import BLOCK

FIRST_PAGE = 66  # the block of page 0
FIRST_TREE_PAGE = 17
RECORDS, RECORD, RECORD_SIZE = 32, 8, 96  # in a page of the catalog: how many, the offset of the first, and their size
TREE_LEVELS, CHILDREN = 7, 128  # of a tree page: its levels, and its parts
FLAGS, DIFFERENCES, CHILD_PAGES = 8, 40, 2072  # offsets in a tree page
MAGICS = {b"CHARTST1": 1, b"CHARTST2": 2}  # the versions of the format
CATALOG_KINDS = {1: 3, 2: 4}  # the first byte of a page of the catalog, by the version
MOST_BLOCKS = 2**32 - 1  # of a store
MOST = 10**18  # the greatest size of a value


class Damaged(Exception):
    """Why bytes are no store."""


require = functools.partial(built_program.require, kind=Damaged)


def page_levels(slots):
    """The least k of at least 1 with 128^k >= slots."""
    return next(k for k in range(1, 6) if CHILDREN**k >= slots)


def span_of(spans):
    stored = [span for span in spans if span]
    return (min(low for low, _ in stored), max(high for _, high in stored)) if stored else None


def page_count(book):
    """The pages that a book takes."""
    ranges = 0
    for *_, slots in book:
        stored = [slot for slot, value in enumerate(slots) if value is not None]
        for _ in range(page_levels(len(slots))):
            stored = {at // CHILDREN for at in stored}
            ranges += len(stored)
    return FIRST_TREE_PAGE + ranges


def superblock(total, fresh, series, version=2):
    return (b"CHARTST%d" % version + struct.pack(">5I", total, fresh, 0, 0, series)).ljust(BLOCK, b"\0")


def tree_page(level, spans, children):
    """A tree page over its 128 parts, by the span of each and the page of each."""
    page = bytearray(BLOCK)
    page[:2] = 2, level
    flags, below = 0, spans
    for depth in reversed(range(TREE_LEVELS)):
        halves, below = below, []
        for index in range(2**depth):
            node = 2**depth - 1 + index
            left, right = halves[2 * index : 2 * index + 2]
            flags |= ((left is not None) + 2 * (right is not None)) << 2 * node
            if left and right:
                difference = struct.pack(">2q", left[0] - right[0], left[1] - right[1])
                page[DIFFERENCES + 16 * node : DIFFERENCES + 16 * node + 16] = difference
            below.append(span_of((left, right)))
    page[FLAGS : FLAGS + 32] = flags.to_bytes(32, "little")
    page[CHILD_PAGES : CHILD_PAGES + 4 * CHILDREN] = struct.pack(f">{CHILDREN}I", *children)
    return bytes(page)


def add_tree(pages, level, slots):
    """Puts the tree of some slots behind the pages. Gives the number of its top page, 0 without one, and its span."""
    if not any(value is not None for value in slots):
        return 0, None
    if level == 1:
        parts = [(0, None if value is None else (value, value)) for value in slots]
    else:
        size = CHILDREN ** (level - 1)
        parts = [add_tree(pages, level - 1, slots[at : at + size]) for at in range(0, len(slots), size)]
    parts += [(0, None)] * (CHILDREN - len(parts))
    spans = [span for _, span in parts]
    pages.append(tree_page(level, spans, [page for page, _ in parts]))
    return len(pages) - 1, span_of(spans)


def record(series, root, span, version=2):
    name, start, step, scale, slots = series
    least, greatest = span or (0, 0)
    head = struct.pack(">3Bx32s", 1, len(name), scale, name.encode())
    levels = page_levels(len(slots)) if version == 2 else 0
    return (head + struct.pack(">IqQI4x2qB", step, start, len(slots), root, least, greatest, levels)).ljust(RECORD_SIZE, b"\0")


def pages_of(book, total, version=2):
    """The pages in use of a store of this book in which none was freed: each tree's pages below their top, in order."""
    pages = [b""] * FIRST_TREE_PAGE
    records = [record(series, *add_tree(pages, page_levels(len(series[-1])), series[-1]), version) for series in book]
    pages[0] = superblock(total, len(pages), len(book), version)
    for page in range(1, FIRST_TREE_PAGE):
        own = records[RECORDS * (page - 1) : RECORDS * page]
        pages[page] = (bytes([CATALOG_KINDS[version]]).ljust(RECORD, b"\0") + b"".join(own)).ljust(BLOCK, b"\0")
    return pages


def store_of(book, blocks, version=2):
    """The first bytes of a store of this book on a disk of so many blocks, behind a closed gate."""
    return bytes(BLOCK * FIRST_PAGE) + b"".join(pages_of(book, blocks - FIRST_PAGE, version))


def journal_of(pages):
    """The blocks in front of the pages, where the gate is open before a journal of these pages, by their numbers."""
    directory = b"CHARTDIR" + struct.pack(f">I{len(pages)}I", len(pages), *pages)
    blocks = [b"\1", directory, *pages.values()]
    return b"".join(block.ljust(BLOCK, b"\0") for block in blocks).ljust(BLOCK * FIRST_PAGE, b"\0")


def block_of(data, number):
    return data[BLOCK * number : BLOCK * (number + 1)]


def pages_in(data):
    """How many pages a store's file has."""
    return min(len(data) // BLOCK, MOST_BLOCKS) - FIRST_PAGE


def journal_in(data):
    """The numbers of the pages in a store's journal, in the order of their images; None where the directory breaks its layout."""
    directory = block_of(data, 1)
    (count,) = struct.unpack_from(">I", directory, 8)
    if directory[:8] != b"CHARTDIR" or count > 64:
        return None
    numbers = struct.unpack_from(f">{count}I", directory, 12)
    return numbers if len(set(numbers)) == count and all(number < pages_in(data) for number in numbers) else None


class Store:
    """The pages that a file's bytes stand for, behind its journal where the gate is open."""

    def __init__(self, data):
        self.data = data
        self.count = pages_in(data)
        self.replayed = {}
        self.used = set()  # the tree pages that were met
        if data[0] == 1:
            numbers = journal_in(data)
            require(numbers is not None, "the directory")
            self.replayed = {number: block_of(data, 2 + i) for i, number in enumerate(numbers)}

    def page(self, number):
        return self.replayed.get(number) or block_of(self.data, FIRST_PAGE + number)

    def book(self):
        """The book, once it is made sure that each page keeps what is read of it, and that each is used once."""
        first = self.page(0)
        require(first[:8] in MAGICS, "the magic")
        self.version = MAGICS[first[:8]]
        total, self.fresh, head, chain, count = struct.unpack_from(">5I", first, 8)
        require(62 <= total <= self.count and FIRST_TREE_PAGE <= self.fresh <= total and count <= 512, "page 0")
        book = [self.series(number) for number in range(count)]
        for _ in range(chain):
            self.use(head)
            page = self.page(head)
            require(page[0] == 1, f"page {head} of the chain")
            (head,) = struct.unpack_from(">I", page, 4)
        require(head == 0, "the chain's end")
        require(self.used == set(range(FIRST_TREE_PAGE, self.fresh)), "a page is in no tree, and not in the chain")
        require(self.fresh - chain == page_count(book), "the pages in use aren't those that the book takes")
        return book

    def use(self, number):
        require(FIRST_TREE_PAGE <= number < self.fresh and number not in self.used, f"page {number} is used twice, or not there")
        self.used.add(number)

    def series(self, number):
        page, at = self.page(1 + number // RECORDS), RECORD + RECORD_SIZE * (number % RECORDS)
        require(page[0] == CATALOG_KINDS[self.version], "a page of the catalog")
        used, length, scale, name = struct.unpack_from(">3Bx31s", page, at)
        step, start, slots, root, least, greatest = struct.unpack_from(">IqQI4x2q", page, at + 36)
        require(used == 1, "a record")
        require(page[at + 80] == (page_levels(slots) if self.version == 2 else 0), "the page levels of a series")
        found = {}
        if root:
            self.read_tree(root, page_levels(slots), 0, (least, greatest), found)
        require(span_of((v, v) for v in found.values()) == ((least, greatest) if root else None), "a series' span")
        require(all(slot < slots for slot in found), "a value behind a series' slots")
        return name[:length].decode(), start, step, scale, [found.get(slot) for slot in range(slots)]

    def read_tree(self, number, level, first, span, found):
        """Finds the values below a tree page, by their slots, of which this is the first one."""
        self.use(number)
        page = self.page(number)
        require(page[:2] == bytes((2, level)), f"page {number} of a tree")
        *_, children = fields_of(page)
        size = CHILDREN ** (level - 1)
        for at, (child, part) in enumerate(zip(children, parts_of(page, span))):
            require((child != 0) == (level > 1 and part is not None), f"the children of page {number}")
            if child:
                self.read_tree(child, level - 1, first + size * at, part, found)
            elif part:
                require(part[0] == part[1], f"a slot of page {number}")
                found[first + at] = part[0]


def fields_of(page):
    """The level of a tree page, its flags as one number, the two differences of each node, and the page of each part."""
    flags = int.from_bytes(page[FLAGS : FLAGS + 32], "little")
    differences = list(struct.iter_unpack(">2q", page[DIFFERENCES:CHILD_PAGES]))
    return page[1], flags, differences, struct.unpack_from(f">{CHILDREN}I", page, CHILD_PAGES)


@functools.lru_cache(64)
def parts_of(page, span):
    """The spans of the 128 parts of a tree page that has this span."""
    _, flags, differences, _ = fields_of(page)
    spans = [span]
    for node in range(CHILDREN - 1):
        both, pair = flags >> 2 * node & 3, differences[node]
        require((both == 0) == (spans[node] is None), f"a flag of node {node}")
        require(both == 3 or pair == (0, 0), f"a difference of node {node}")
        halves = halves_of(spans[node], both, pair) if both else (None, None)
        require(halves is not None, f"the coefficient of node {node}")
        spans += halves
    return spans[CHILDREN - 1 :]


def halves_of(span, flags, differences):
    """The spans of the halves of a key, None for a half without a value; or None where the span can't be split so."""
    if flags < 3:
        return (span, None) if flags == 1 else (None, span)
    (least, greatest), (dmin, dmax) = span, differences
    halves = (least + max(dmin, 0), greatest + min(dmax, 0)), (least + max(-dmin, 0), greatest + min(-dmax, 0))
    return halves if all(-MOST <= low <= high <= MOST for low, high in halves) else None


def book_of(data):
    """The book of a store's file, or Damaged. Its values are all read, so it is meant for books of a few million slots."""
    return Store(data).book()
