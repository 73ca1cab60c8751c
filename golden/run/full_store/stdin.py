print("create a 0 1 0")
for _ in range(22):
    print("append a" + 256 * " 0")
print("append a 1")
print("clear a 0 128")
print("append a 1")
