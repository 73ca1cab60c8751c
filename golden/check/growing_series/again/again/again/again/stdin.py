from golden_data import append_lines

print(*append_lines("a", 129, 16384), sep="\n")
