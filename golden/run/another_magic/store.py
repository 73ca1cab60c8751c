from golden_data import SERIES, write_damaged_store

# Page 0 lacks the magic.
write_damaged_store(SERIES, page=0, offset=7, byte=ord("3"))
