from golden_data import write_changed_frames

# The View's kind.
write_changed_frames(39 + 4, 0)
