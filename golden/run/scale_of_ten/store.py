from golden_data import SERIES, write_damaged_store

# The record of `a` on page 1 says that its values have ten decimals.
write_damaged_store(SERIES, page=1, offset=10, byte=10)
