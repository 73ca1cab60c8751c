import sys

from golden_data import write_views

sys.stdout.buffer.write(b"opened 1 65536\n")
write_views(2)
sys.stdout.buffer.write(b"opened 2 131072\n")
write_views(1, 2)
