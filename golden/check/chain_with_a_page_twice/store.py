import struct
import sys

from golden_data import BLOCKS, PAGES, SERIES
from store_format import BLOCK, FIRST_PAGE, store_of

# The pages 18 and 19 were freed, by page 0, but page 18 names itself as the next of the chain.
store = bytearray(store_of([SERIES], BLOCKS))
struct.pack_into(">5I", store, BLOCK * FIRST_PAGE + 8, PAGES, 20, 18, 2, 1)
chain = (bytes([1, 0, 0, 0]) + struct.pack(">I", 18)).ljust(BLOCK, b"\0") + b"\1".ljust(BLOCK, b"\0")
sys.stdout.buffer.write(store + chain)
