from golden_data import write_pages

write_pages(("a", 0, 1, 0, [4, 7, 2, 9]))
