from golden_data import write_pages

write_pages(("a", -7, 5, 2, [-5, 150, None, 200]))
