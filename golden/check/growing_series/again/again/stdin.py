from golden_data import append_lines

print(*append_lines("a", 128, 129), sep="\n")
