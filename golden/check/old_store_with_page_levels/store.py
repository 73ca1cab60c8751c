from golden_data import SERIES, write_damaged_store

# The record of the series has a number of page levels, which version 1 has not: nothing is written.
write_damaged_store(SERIES, page=1, offset=88, byte=1, version=1)
