from golden_data import write_pages

write_pages(pages=958)
