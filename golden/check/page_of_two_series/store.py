import struct
import sys

from golden_data import BLOCKS
from store_format import BLOCK, FIRST_PAGE, RECORD, RECORD_SIZE, store_of

# Both records name page 17, and page 18, which was the root of b, is lost. No page breaks its layout.
VALUES = [4, 7, 2, None]
store = bytearray(store_of([("a", 0, 1, 0, VALUES), ("b", 0, 1, 0, VALUES)], BLOCKS))
struct.pack_into(">I", store, BLOCK * (FIRST_PAGE + 1) + RECORD + RECORD_SIZE + 56, 17)
sys.stdout.buffer.write(store)
