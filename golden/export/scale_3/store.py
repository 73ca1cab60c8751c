import sys

from store_format import store_of

sys.stdout.buffer.write(store_of([("a", 60, 1, 3, [1001, -99])], 128))
