import sys

from store_format import BLOCK, DIFFERENCES, FIRST_PAGE, store_of

# Node 63 of page 17 says that the least values of the slots 0 and 1 differ by 4, and their greatest ones by 5: slot 0
# would hold 4 and 5. No page breaks its layout.
store = bytearray(store_of([("a", 0, 1, 0, [5, 0])], 128))
store[BLOCK * (FIRST_PAGE + 17) + DIFFERENCES + 16 * 63 + 7] = 4
sys.stdout.buffer.write(store)
