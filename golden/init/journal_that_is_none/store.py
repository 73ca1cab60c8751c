import sys

from store_format import BLOCK, FIRST_PAGE

# The gate is open before a directory that isn't one, and page 0 has the magic: what an open gate tells comes first.
sys.stdout.buffer.write(b"\1".ljust(BLOCK * FIRST_PAGE, b"\0") + b"CHARTST2")
