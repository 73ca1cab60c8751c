import sys

from golden_data import BLOCKS, SERIES, TREE
from store_format import BLOCK, FIRST_PAGE, store_of

# The least values of the halves of the first four slots differ by -10 in place of 2, and the span of all values is only 5.
store = bytearray(store_of([SERIES], BLOCKS))
at = BLOCK * (FIRST_PAGE + TREE) + 536
store[at : at + 8] = (-10).to_bytes(8, "big", signed=True)
sys.stdout.buffer.write(store)
