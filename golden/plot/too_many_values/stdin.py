# One value past 1,048,576.
print("0\n" * 1048576 + "0")
