import sys

from store_format import BLOCK, FIRST_PAGE

# Page 0 has the magic of another format.
sys.stdout.buffer.write(bytes(BLOCK * FIRST_PAGE) + b"CHARTST3")
