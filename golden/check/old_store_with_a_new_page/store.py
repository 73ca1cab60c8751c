from golden_data import SERIES, write_damaged_store

# Page 16 of the catalog is one of version 2, while page 0 says version 1: nothing is written.
write_damaged_store(SERIES, page=16, offset=0, byte=4, version=1)
