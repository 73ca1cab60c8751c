import sys

from store_format import store_of

sys.stdout.buffer.write(store_of([("temp", 1767225600, 60, 2, [2150, None, -7]), ("w.i_n-Z9", -3600, 10, 0, []), ("z", -(10**18), 2**31, 9, [None] * 130 + [10**18])], 128))
