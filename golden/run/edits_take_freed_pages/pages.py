import struct
import sys

from store_format import BLOCK, FIRST_TREE_PAGE, pages_of, superblock

# Pages 17 and 19 were freed, in this order: page 0 names the last one, and that names the one before it.
pages = pages_of([("a", 0, 1, 0, [None]), ("b", 0, 1, 0, [2]), ("c", 0, 1, 0, [None])], 62)
tree = pages.pop()
chain = struct.pack(">2I", 19, 2)
pages[0] = superblock(62, 20, 3).replace(bytes(8), chain, 1)
pages[1] = pages[1].replace(struct.pack(">2I", 1, FIRST_TREE_PAGE), struct.pack(">2I", 1, 18))
pages += [b"\1".ljust(BLOCK, b"\0"), tree, struct.pack(">B3xI", 1, 17).ljust(BLOCK, b"\0")]
sys.stdout.buffer.write(b"".join(pages))
