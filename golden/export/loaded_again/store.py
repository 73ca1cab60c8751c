import sys

from store_format import store_of

sys.stdout.buffer.write(store_of([("a", -7, 5, 2, [])], 128))
