from golden_data import SERIES, write_damaged_store

# Page 0 says that the store has 61 pages, one less than any has.
write_damaged_store(SERIES, page=0, offset=11, byte=61)
