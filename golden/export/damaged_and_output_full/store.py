from golden_data import write_damaged_store

# The tree has its lowest pages from 17 on, each with 128 slots. The reserved bytes of the one with the slots from 512 on aren't 0. What
# stands before them is less than a piece, so it is sent where the damage is met.
write_damaged_store(("a", 0, 1, 0, list(range(1000))), page=17 + 512 // 128, offset=4000, byte=1)
