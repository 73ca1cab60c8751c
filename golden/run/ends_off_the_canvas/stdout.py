import sys

sys.stdout.buffer.write(b"done 0\ndone 2\nopened 1 65536\nview 1 sent 263\nP4\n4 4096\n" + b"\x40" * 4096)
