"""What the bytes of a store's file say, whatever they are: by docs/FORMATS.md alone, for scripts/gate/damage.

scripts/lib/store_format.py reads stores that are whole. This reader takes any bytes. It says which blocks break their layout or don't
fit their place, and what the others tell. A tree's key is a pair of level and index, and its span a pair of the least and the greatest value.
"""
import collections
import functools
import struct

from store_format import BLOCK, CATALOG_KINDS, CHILDREN, FIRST_PAGE, FIRST_TREE_PAGE, MOST, RECORD, RECORD_SIZE, RECORDS
from store_format import block_of, fields_of, halves_of, journal_in, page_levels

LATEST = 2 * 10**18  # the latest time of a slot
MOST_SLOTS = {1: 2**28, 2: 2**35}  # of a series, by the version of the store
KEPT, LOOKS = 256, 16  # how many records are kept with what was found in their trees, and how many finds of each
CATALOG = range(1, FIRST_TREE_PAGE)
LETTERS = frozenset(b"ABCDEFGHIJKLMNOPQRSTUVWXYZabcdefghijklmnopqrstuvwxyz0123456789_.-")


class Bad(Exception):
    """The blocks of which one has to be named as damaged."""

    def __init__(self, *blocks):
        super().__init__(*blocks)
        self.blocks = set(blocks)


def are_zero(part):
    return not part.strip(b"\0")


def opened(data):
    """The bytes of the file once it was opened: its journal is copied home, and a store of version 1 is one of version 2."""
    return upgraded(replayed(data))


def replayed(data):
    """The bytes behind the journal: where the gate is open, it is copied home, and the gate is closed."""
    if data[0] != 1:
        return data
    numbers = journal_in(data)
    if numbers is None:
        raise Bad(1)
    blocks = [block_of(data, number) for number in range(len(data) // BLOCK)]
    for image, number in enumerate(numbers):
        blocks[FIRST_PAGE + number] = blocks[2 + image]
    blocks[0] = bytes(BLOCK)
    return b"".join(blocks) + data[BLOCK * len(blocks) :]


def upgraded(data):
    """The bytes of a store of version 1 in version 2, with the journal of the commit that brought them there; others stay."""
    if block_of(data, FIRST_PAGE)[:8] != b"CHARTST1":
        return data
    pages = {0: b"CHARTST2" + block_of(data, FIRST_PAGE)[8:]}
    for number in CATALOG:
        page = bytearray(block_of(data, FIRST_PAGE + number))
        records = [at for at in range(RECORD, RECORD + RECORDS * RECORD_SIZE, RECORD_SIZE) if page[at]]
        slots = {at: struct.unpack_from(">Q", page, at + 48)[0] for at in records}
        if page[0] != CATALOG_KINDS[1] or any(page[at + 80] or slots[at] > MOST_SLOTS[1] for at in records):
            raise Bad(FIRST_PAGE + number)
        page[0] = CATALOG_KINDS[2]
        for at in records:
            page[at + 80] = page_levels(slots[at])
        pages[number] = bytes(page)
    return data[: BLOCK * FIRST_PAGE] + b"".join(pages.values()) + data[BLOCK * (FIRST_PAGE + len(pages)) :]


@functools.lru_cache(64)
def tree_page(page):
    """The level, flags, differences and children of a tree page that keeps its layout, else None."""
    level, flags, differences, children = fields_of(page)
    if page[0] != 2 or not 1 <= level <= 5 or any(page[2:8]) or not are_zero(page[2584:]) or flags >> 254:
        return None
    of_node = [flags >> 2 * node & 3 for node in range(127)]
    if not of_node[0] or any((of_node[node] != 0) != (flags >> node - 1 & 1) for node in range(1, 127)):
        return None
    if any(abs(number) > (2 * MOST if both == 3 else 0) for both, pair in zip(of_node, differences) for number in pair):
        return None
    if any((child != 0) != (level > 1 and flags >> 126 + at & 1) for at, child in enumerate(children)):
        return None
    return level, of_node, differences, children


class Series:
    found = {}  # what was found in trees, by what was looked for, the record and the total, with the pages that it was read of

    def __init__(self, store, record):
        self.store, self.record, self.read, self.taken = store, record, {}, set()
        used, length, self.scale, zero, name, zero_too = struct.unpack_from(">4B31sB", record)
        self.step, self.start, self.slots, self.root, rest, least, greatest = struct.unpack_from(">IqQIIqq", record, 36)
        self.name = name[:length].decode("latin-1")
        self.span = (least, greatest) if self.root else None
        self.fits = (
            (used, zero, zero_too, rest) == (1, 0, 0, 0) and not any(record[81:])
            and 1 <= length <= 31 and LETTERS.issuperset(name[:length]) and not any(name[length:]) and self.scale <= 9
            and 1 <= self.step <= 2**31 and abs(self.start) <= MOST
            and self.slots <= MOST_SLOTS[2] and (not self.slots or self.start + (self.slots - 1) * self.step <= LATEST)
            and record[80] == page_levels(self.slots) and (FIRST_TREE_PAGE <= self.root < store.fresh if self.root and self.slots else not self.root)
            and (-MOST <= least <= greatest <= MOST if self.root else least == greatest == 0)
        )
        self.levels = page_levels(self.slots) if self.slots <= MOST_SLOTS[2] else 0
        self.top = 7 * self.levels, 0

    def remember(self, sought, look):
        """What `look` finds in the tree, where `sought` is what it looks for: looked up, where it was found before in the same pages."""
        if len(self.found) > KEPT:
            self.found.clear()
        finds = self.found.setdefault((sought, self.record, self.store.total), collections.deque(maxlen=LOOKS))
        for pages, answer in finds:
            if all(self.store.page(number) == page for number, page in pages):
                return answer
        self.taken = set()
        answer = look()
        finds.appendleft(([(number, self.store.page(number)) for number in self.taken], answer))
        return answer

    def page(self, level, index):
        """The number of the page of this page level and index and what it says; or Bad, where the way to it is damaged."""
        if (level, index) not in self.read:
            self.read[level, index] = self.read_page(level, index)
        self.taken.add(self.read[level, index][0])
        return self.read[level, index]

    def read_page(self, level, index):
        if level == self.levels:
            number = self.root
        else:
            above, (_, _, _, children) = self.page(level + 1, index // CHILDREN)
            number = children[index % CHILDREN]
            if number >= self.store.total:
                raise Bad(FIRST_PAGE + above)
        self.taken.add(number)
        said = tree_page(self.store.page(number))
        if not said or said[0] != level:
            raise Bad(FIRST_PAGE + number)
        return number, said

    def split(self, key, span):
        """The coefficient of a key that has this span, and the keys and spans of its halves that have a value."""
        level, index = key
        page_level = (level + 6) // 7
        depth = 7 * page_level - level
        number, (_, flags, differences, _) = self.page(page_level, index >> depth)
        node = 2**depth - 1 + index % 2**depth
        halves = halves_of(span, flags[node], differences[node])
        if not halves:
            raise Bad(FIRST_PAGE + number)
        parts = [((level - 1, half), part) for half, part in enumerate(halves, 2 * index) if part]
        return (flags[node], *differences[node]), parts

    def look(self):
        return self.remember("values", self.count)

    def count(self):
        """How many values the tree has, and the blocks of its pages that are bad for their place: one of which a slot holds two values, too,
        or that has a value behind the series' last slot."""
        values, bad, found = 0, set(), [(self.top, self.span)] if self.span else []
        while found:
            key, span = found.pop()
            level, index = key
            if level == 0:
                values += 1
                if span[0] < span[1] or index >= self.slots:
                    bad.add(FIRST_PAGE + self.page(1, index // CHILDREN)[0])
                continue
            try:
                found += self.split(key, span)[1]
            except Bad as why:
                bad |= why.blocks
        return values, bad


class Store:
    """What the bytes of a file say once it was opened; Bad, where they can't be opened."""

    def __init__(self, data):
        self.data = opened(data)
        count = len(data) // BLOCK - FIRST_PAGE
        first = self.page(0)
        self.total, self.fresh, self.head, self.chain, series = struct.unpack_from(">5I", first, 8)
        if not (
            first[:8] == b"CHARTST2" and are_zero(first[28:]) and 62 <= self.total <= count and FIRST_TREE_PAGE <= self.fresh <= self.total
            and (self.head == 0) == (self.chain == 0) and (self.head == 0 or FIRST_TREE_PAGE <= self.head < self.fresh)
            and self.chain <= self.fresh - FIRST_TREE_PAGE and series <= 512
        ):
            raise Bad(FIRST_PAGE)
        self.series, bad = [], set()
        for number in CATALOG:
            bad |= self.read_catalog(number, max(0, min(series - RECORDS * (number - 1), RECORDS)))
        if bad:
            raise Bad(*bad)

    def page(self, number):
        return block_of(self.data, FIRST_PAGE + number)

    def read_catalog(self, number, count):
        """Adds the series of a catalog page. Gives its block where it is bad."""
        page, behind = self.page(number), RECORD + RECORD_SIZE * count
        own = [Series(self, page[at : at + RECORD_SIZE]) for at in range(RECORD, behind, RECORD_SIZE)]
        self.series += own
        names = [series.name for series in self.series]
        whole = page[0] == CATALOG_KINDS[2] and not any(page[1:RECORD]) and are_zero(page[behind:]) and all(series.fits for series in own)
        repeated = any(names.index(name) < at for at, name in enumerate(names) if at >= len(names) - len(own))
        return set() if whole and not repeated else {FIRST_PAGE + number}

    def named(self, name):
        return next((at for at, series in enumerate(self.series) if series.name == name), None)

    def chain_bad(self):
        """The block of the first page of the chain that breaks its layout, if one does."""
        number = self.head
        for left in range(self.chain - 1, -1, -1):
            page = self.page(number)
            (behind,) = struct.unpack_from(">I", page, 4)
            follows = FIRST_TREE_PAGE <= behind < self.fresh if left else behind == 0
            if page[:4] != b"\1\0\0\0" or not are_zero(page[8:]) or not follows:
                return {FIRST_PAGE + number}
            number = behind
        return set()

    def check(self):
        """What `check` sends; Bad, where a page of a tree or of the chain is bad for its place."""
        looks = [series.look() for series in self.series]
        bad = self.chain_bad().union(*(found for _, found in looks))
        if bad:
            raise Bad(*bad)
        values, used = sum(values for values, _ in looks), self.fresh - self.chain
        return f"series {len(self.series)}\nvalues {values}\npages {used} of {self.total}\n".encode()
