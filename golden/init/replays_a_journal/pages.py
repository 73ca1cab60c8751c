import sys

from golden_data import PAGES
from store_format import FIRST_TREE_PAGE, superblock

sys.stdout.buffer.write(superblock(PAGES, FIRST_TREE_PAGE, 0))
