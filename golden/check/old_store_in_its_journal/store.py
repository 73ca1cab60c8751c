from golden_data import write_old_store_behind_journal

# The journal of version 1 is replayed first, and then its pages are brought to version 2.
write_old_store_behind_journal()
