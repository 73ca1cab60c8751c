import struct
import sys

from golden_data import BLOCKS, SERIES
from store_format import BLOCK, journal_of, store_of

# The gate is open before a directory that names page 17 twice.
journal = bytearray(journal_of({17: bytes(BLOCK), 18: bytes(BLOCK)}))
struct.pack_into(">2I", journal, BLOCK + 12, 17, 17)
sys.stdout.buffer.write(journal + store_of([SERIES], BLOCKS)[len(journal) :])
