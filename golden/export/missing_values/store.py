import sys

from store_format import store_of

sys.stdout.buffer.write(store_of([("b", 0, 1, 0, [9]), ("a", 0, 1, 0, [None] * 200 + [3] + [None] * 100)], 128))
