import sys

from store_format import store_of

sys.stdout.buffer.write(store_of([("a", 0, 7, 1, [0, 10])], 128))
