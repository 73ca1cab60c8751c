from golden_data import SERIES, write_store_with_freed_page

# Page 18 was freed, so page 0 names it, and its own kind is that of a freed page.
write_store_with_freed_page(SERIES, freed=b"\1")
