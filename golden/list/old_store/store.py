from golden_data import SERIES, write_old_store

# Version 1: the opening brings it to version 2.
write_old_store(SERIES)
