import sys

from golden_data import BLOCKS, PAGES, SERIES
from store_format import BLOCK, journal_of, store_of

# The gate is open before a directory that names the page behind the last one.
journal = journal_of({0: bytes(BLOCK), PAGES: bytes(BLOCK)})
sys.stdout.buffer.write(journal + store_of([SERIES], BLOCKS)[len(journal) :])
