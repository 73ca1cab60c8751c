import struct
import sys

from golden_data import BLOCKS, PAGES, SERIES, TREE
from store_format import BLOCK, FIRST_PAGE, store_of

# The page of the tree is the only page of the chain, too, by page 0, but its kind is that of a tree page.
store = bytearray(store_of([SERIES], BLOCKS))
struct.pack_into(">5I", store, BLOCK * FIRST_PAGE + 8, PAGES, TREE + 1, TREE, 1, 1)
sys.stdout.buffer.write(store)
