import sys

from golden_data import PAGES
from store_format import FIRST_TREE_PAGE, journal_of, superblock

# The gate is open before a journal of one page, page 0, which is that of a store.
sys.stdout.buffer.write(journal_of({0: superblock(PAGES, FIRST_TREE_PAGE, 0)}))
