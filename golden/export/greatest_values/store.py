import sys

from store_format import store_of

sys.stdout.buffer.write(store_of([("a", 10**18, 2**31, 0, [10**18, -(10**18)])], 128))
