# 1,048,576 values, and an empty line that isn't one.
print("0\n" * 1048576)
