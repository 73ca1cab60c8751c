import sys

sys.stdout.buffer.write(b"done 0\nopened 1 65536\n" + b"view 1 sent 31\nP4\n1 1\n\0" * 16)
