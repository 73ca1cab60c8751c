# The line after 1,048,576 values is bad before it is one too many.
print("0\n" * 1048576 + "x")
