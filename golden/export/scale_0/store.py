import sys

from store_format import store_of

sys.stdout.buffer.write(store_of([("a", 10, 5, 0, [-5, None, 0, 12])], 128))
