from golden_data import write_pages

write_pages(("a", 0, 1, 0, [9, 7, 2, None, 5, None, 6]))
