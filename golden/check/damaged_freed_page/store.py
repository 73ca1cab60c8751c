from golden_data import SERIES, write_store_with_freed_page

# Page 18 was freed, so page 0 names it, but it has another kind.
write_store_with_freed_page(SERIES, freed=b"\x09")
