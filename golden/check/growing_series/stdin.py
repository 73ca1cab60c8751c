from golden_data import append_lines

print("create a 0 1 0")
print(*append_lines("a", 0, 128), sep="\n")
