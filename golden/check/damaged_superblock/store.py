from golden_data import SERIES, write_damaged_store

# Page 0 says that it has more series than a catalog has records.
write_damaged_store(SERIES, page=0, offset=26, byte=3)
