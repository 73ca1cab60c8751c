import sys

from golden_data import BLOCKS, SERIES
from store_format import store_of

# The gate is open before a directory that isn't one.
sys.stdout.buffer.write(b"\1" + store_of([SERIES], BLOCKS)[1:])
