from golden_data import append_lines

print(*append_lines("a", 16384, 16385), sep="\n")
