from golden_data import SERIES, write_old_store

# A store of version 1 is one that is there.
write_old_store(SERIES)
