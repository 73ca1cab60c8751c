from golden_data import SERIES, write_damaged_store

# Page 0 has a byte behind its fields that isn't 0.
write_damaged_store(SERIES, page=0, offset=4095, byte=1)
