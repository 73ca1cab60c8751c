import sys

from store_format import pages_of

# The page that was freed last is taken first: a has page 19, and c page 17.
pages = pages_of([("c", 0, 1, 0, [None, 6]), ("b", 0, 1, 0, [2]), ("a", 0, 1, 0, [None, 5])], 62)
head, record = pages[1][:8], 96
c, b, a = (pages[1][at : at + record] for at in range(8, 8 + 3 * record, record))
pages[1] = (head + a + b + c).ljust(len(pages[1]), b"\0")
sys.stdout.buffer.write(b"".join(pages))
