from golden_data import SERIES, write_damaged_store

# The series has 2^32 + 4 slots, more than version 1 allows: nothing is written.
write_damaged_store(SERIES, page=1, offset=59, byte=1, version=1)
