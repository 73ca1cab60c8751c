from golden_data import SERIES, write_pages

write_pages(SERIES)
