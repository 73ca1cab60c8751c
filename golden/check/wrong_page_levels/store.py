from golden_data import SERIES, write_damaged_store

# The record of a series of 4 slots says two page levels.
write_damaged_store(SERIES, page=1, offset=88, byte=2)
