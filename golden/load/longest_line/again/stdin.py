# A row of 8,192 bytes, the longest one that is read, and one behind it that is a byte longer.
print("0," + "1".rjust(8190, "0"))
print("1," + "1".rjust(8191, "0"))
