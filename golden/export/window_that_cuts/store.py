import sys

from store_format import store_of

sys.stdout.buffer.write(store_of([("a", 0, 10, 0, list(range(300)))], 128))
