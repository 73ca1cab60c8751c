from golden_data import SERIES, write_damaged_store

# The record of `a` on page 1 says that its root is page 18, which was never given out.
write_damaged_store(SERIES, page=1, offset=67, byte=18)
