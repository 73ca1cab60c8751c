from golden_data import write_changed_frames

# The View's length.
write_changed_frames(39, 0, 0, 0, 0)
