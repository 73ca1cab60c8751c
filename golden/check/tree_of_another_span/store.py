from golden_data import SERIES, write_damaged_store

# The record of `a` on page 1 says that its greatest value is 6. No page breaks its layout, but below it on page 17 a least value
# passes a greatest one.
write_damaged_store(SERIES, page=1, offset=87, byte=6)
