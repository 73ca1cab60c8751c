import sys

from store_format import BLOCK, FIRST_PAGE, store_of

# The tree has its lowest pages from 17 on, each with 128 slots. The reserved bytes of the one with the slots from 5120 on aren't 0.
store = bytearray(store_of([("a", 0, 1, 0, list(range(6000)))], 160))
store[BLOCK * (FIRST_PAGE + 17 + 5120 // 128) + 4000] = 1
sys.stdout.buffer.write(store)
