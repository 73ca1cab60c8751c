"""What the scripts of this folder share: the built program, a `chart` over it that never builds, and how a script ends."""
import ctypes
import os
import shutil
import subprocess
import sys

ROOT = os.path.dirname(os.path.dirname(os.path.dirname(os.path.realpath(__file__))))
OUT = "crates/chart_program/out"
PROGRAM = os.path.join(ROOT, OUT, "chart_program")
BLOCK = 4096  # the bytes of a block of a store
SECONDS = 300  # the most that scripts wait for an end or an answer: a guard alone, so that no machine is too slow for them
MEMORY = "/dev/shm" if os.access("/dev/shm", os.W_OK) else None  # a sync costs nothing there


class Stopped(Exception):
    """Why a script has nothing to say of the program."""


class Failed(Stopped):
    """What isn't as it has to be."""


def require(holds, what, kind=Failed):
    if not holds:
        raise kind(what)


def require_program():
    if not (os.path.isfile(PROGRAM) and os.access(PROGRAM, os.X_OK)):
        raise Stopped("the program isn't built; ./chart and rt ci build it")


def run_program(words, given=b"", before=(), seconds=SECONDS):
    """A run of the program, with the words of another one before its own, that gets these bytes and has to end in so many seconds."""
    return subprocess.run([*before, PROGRAM, *words], input=given, capture_output=True, timeout=seconds, check=False)


def make_chart(folder, program=PROGRAM):
    """Makes a `chart` in a folder, over a copy of a program. It finds no sources there, so it takes that as up to date."""
    os.makedirs(os.path.join(folder, OUT))
    for name in ("chart", "crates.txt", "VERSION"):
        shutil.copy(os.path.join(ROOT, name), folder)
    os.utime(os.path.join(folder, "crates.txt"), (0, 0))
    if program:
        shutil.copy(program, os.path.join(folder, OUT, "chart_program"))


def bytes_in(path):
    """The bytes of a file, and none where there is no such file."""
    if not os.path.exists(path):
        return b""
    with open(path, "rb") as file:
        return file.read()


def heed_permissions():
    """Takes root's power over files that may not be read or written from this process, and from what it runs."""
    drop_from_bounds, override_permissions, search_and_read = 24, 1, 2
    for power in (override_permissions, search_and_read) if os.geteuid() == 0 else ():
        if ctypes.CDLL(None).prctl(drop_from_bounds, power, 0, 0, 0):
            raise OSError("root can't be kept from files that it may not read or write")


def numbers_in(words, *usual):
    """The numbers that words spell, as many as there are usual ones, which stand for those that are left out."""
    if len(words) > len(usual) or not all(word.isascii() and word.isdigit() for word in words):
        raise Stopped(f"its words are at most {len(usual)} whole numbers")
    return [*map(int, words), *usual[len(words) :]]


def end(main):
    """Does a script's work, given its words, and ends with the status that it gives: 1 where it was stopped.

    Where nobody takes what it prints any more, that is 1 too, and it says nothing.
    """
    why = None
    try:
        if sys.stdout is None:
            raise Stopped("standard output is closed")
        status = main(sys.argv[1:])
        sys.stdout.flush()
        sys.exit(status)
    except Stopped as stopped:
        why = stopped
    except BrokenPipeError:
        leave_output()
    except OSError as fault:
        leave_output()
        why = fault
    sys.exit(f"{os.path.basename(sys.argv[0])}: {why}" if why else 1)


def leave_output():
    """Sends nowhere what standard output still holds, so that Python doesn't try to write it when it ends."""
    os.dup2(os.open(os.devnull, os.O_WRONLY), sys.stdout.fileno())
