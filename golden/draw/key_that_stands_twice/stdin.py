from golden_data import write_changed_frames

# The key of the View's second coefficient is that of the first one.
write_changed_frames(39 + 88 + 25, 0, 0, 7, 0, 0, 0, 0, 0)
