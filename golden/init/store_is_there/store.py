import sys

from golden_data import BLOCKS
from store_format import store_of

sys.stdout.buffer.write(store_of([], BLOCKS))
