import sys

# One value has height 0: the first pixel of the last row is black.
sys.stdout.buffer.write(b"P4\n4096 4096\n" + bytes(4095 * 512) + b"\x80" + bytes(511))
