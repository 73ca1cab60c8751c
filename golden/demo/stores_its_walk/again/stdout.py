import sys

# Each slot has the value that is asked for: its view is one row, and one pixel.
sys.stdout.buffer.write(b"opened 1 65536\n" + 2048 * b"view 1 sent 65\nP4\n1 1\n\x80")
