"""A process that makes a copy of a store, made while that changed, what the store is at a moment: it copies the pieces that differ.

usage: bring_up.py STORE COPY

For each line that comes it does that once, and answers by a line. Both files are mapped into memory, so that they are compared as fast as memory is
read. It is a process of its own since a disk that can't be read ends whoever has mapped it.
"""
import ctypes
import mmap
import os
import sys

PIECE = 2**18  # bytes that are compared at once


def pieces_of(file):
    """The pieces of a file that are no holes: pairs of an offset and a size."""
    at, length = 0, os.fstat(file).st_size
    while at < length:
        try:
            at = os.lseek(file, at, os.SEEK_DATA)
        except OSError:  # there is no data behind
            return
        end = os.lseek(file, at, os.SEEK_HOLE)
        for begin in range(at, end, PIECE):
            yield begin, min(PIECE, end - begin)
        at = end


def mapped(file):
    """The bytes of a file as they are in memory, and their address. Nothing is written there."""
    found = mmap.mmap(file, 0, access=mmap.ACCESS_COPY)
    return found, ctypes.addressof(ctypes.c_char.from_buffer(found))


def main(path, into):
    source, copied = os.open(path, os.O_RDONLY), os.open(into, os.O_RDWR)
    (data, one), (_copy, other) = mapped(source), mapped(copied)
    differ = ctypes.CDLL(None).memcmp
    differ.argtypes, differ.restype = [ctypes.c_void_p, ctypes.c_void_p, ctypes.c_size_t], ctypes.c_int
    for _ in sys.stdin.buffer:
        for at, size in pieces_of(source):
            if differ(one + at, other + at, size) and os.pwrite(copied, data[at : at + size], at) != size:
                raise OSError(f"{into} can't be written at {at}")
        os.write(1, b"done\n")


if __name__ == "__main__":
    main(*sys.argv[1:])
