# A line of 8,193 bytes is one byte too long. One of 8,192 is read, and is no request.
print("x" * 8193 + "\n" + "x" * 8192 + "\ncreate a 0 1 0")
