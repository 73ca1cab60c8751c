from golden_data import write_pages

# Each field of a record and of a difference is at an end of its range; halves are missing on either side.
MOST = 10**18
first = ("AZaz09_.-Temperature-of-room-31", -MOST, 2**31, 9, [-MOST, MOST, None, None])
second = ("b-2", MOST, 1, 0, [None, None, None, None, None, MOST, -MOST, None])
write_pages(first, second)
