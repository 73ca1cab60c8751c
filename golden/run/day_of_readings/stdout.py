import sys

from golden_data import write_views

out = sys.stdout.buffer
out.write(b"done 0\n")
for begin in range(0, 86400, 256):
    out.write(b"done %d\n" % min(begin + 256, 86400))
out.write(b"opened 1 65536\n")
write_views()
