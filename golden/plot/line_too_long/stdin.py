# A line of 8,193 bytes is one byte too long.
print("7\n" + "1" * 8193)
