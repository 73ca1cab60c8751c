import sys

from golden_data import store_with_its_gate_open
from store_format import BLOCK

# The directory begins with another byte than a directory does.
store = store_with_its_gate_open()
store[BLOCK] = 0
sys.stdout.buffer.write(store)
