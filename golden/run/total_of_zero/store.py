from golden_data import SERIES, write_damaged_store

# Page 0 says that the store has no pages.
write_damaged_store(SERIES, page=0, offset=11, byte=0)
