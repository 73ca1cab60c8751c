from golden_data import SERIES, write_damaged_store

# Page 16 of the catalog is one of version 1, while page 0 says version 2.
write_damaged_store(SERIES, page=16, offset=0, byte=3)
