import sys

from golden_data import frames_of_first_view

sys.stdout.buffer.write(frames_of_first_view()[:200])
