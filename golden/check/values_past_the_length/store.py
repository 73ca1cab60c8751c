import sys

from store_format import BLOCK, FIRST_PAGE, store_of

# The record of `a` on page 1 says 256 slots in place of 300. Page 19 stores the values of the slots from 256 on.
store = bytearray(store_of([("a", 0, 1, 0, list(range(300)))], 128))
store[BLOCK * (FIRST_PAGE + 1) + 63] = 0
sys.stdout.buffer.write(store)
