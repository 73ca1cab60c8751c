from golden_data import write_changed_frames

# Whether the View's series has a stored value is told by 0 or 1.
write_changed_frames(39 + 67, 2)
