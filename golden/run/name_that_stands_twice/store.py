import sys

from golden_data import BLOCKS
from store_format import store_of

# Series 32, whose record is on page 2, has the name of series 0.
book = [(name, 0, 1, 0, []) for name in (*(f"s{number}" for number in range(32)), "s0")]
sys.stdout.buffer.write(store_of(book, BLOCKS))
