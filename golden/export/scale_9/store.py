import sys

from store_format import store_of

sys.stdout.buffer.write(store_of([("a", 0, 1, 9, [1, -1, 10**9, -(10**18), 0, -(10**18) + 1, 10**18 - 1])], 128))
