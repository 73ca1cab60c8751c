import sys

from store_format import BLOCK, FIRST_PAGE

# Page 0 has the magic, and nothing else that a store has: it isn't written over.
sys.stdout.buffer.write(bytes(BLOCK * FIRST_PAGE) + b"CHARTST2")
