from golden_data import SERIES, write_store_with_freed_page

# Page 18 was freed, so page 0 names it, and a byte behind its number isn't 0. The edit of b takes it.
write_store_with_freed_page(SERIES, ("b", 0, 1, 0, []), freed=b"\1" + bytes(7) + b"\1")
