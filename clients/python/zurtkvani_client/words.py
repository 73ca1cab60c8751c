"""What statuses and refusals mean, in words: those of docs/statuses.txt of the repository, of which a wheel has a copy."""
import os
import re
import stat

LEAST_ROOM = 2 * 66 * 4096  # bytes: the journal, and as much again at home
HERE = os.path.dirname(os.path.realpath(__file__))
# In the package, or where the repository keeps it.
PLACES = (os.path.join(HERE, "statuses.txt"), os.path.join(HERE, "../../../docs/statuses.txt"))


def read_entries():
    """The entries of the table in their order, each as its texts by their keys."""
    with open(next(filter(os.path.exists, PLACES)), encoding="utf-8") as file:
        text = "".join(line for line in file if not line.startswith("#"))
    return [dict(line.split(": ", 1) for line in entry.splitlines()) for entry in text.strip().split("\n\n")]


ENTRIES = read_entries()
NAMES = tuple(entry["name"] for entry in ENTRIES if "refusal" in entry)  # of the refusals, from number 1 on


def numbers_of(*names):
    """The numbers of the refusals of these names."""
    return [NAMES.index(name) + 1 for name in names]


def entry_of(status, place, command):
    """The texts for the status and the place that a command ended with; none where the table has none."""
    for entry in ENTRIES:
        is_for = entry.get("at", str(place)) == str(place) and command in entry.get("of", command).split()
        if entry.get("status") == str(status) and is_for:
            return entry
    return {}


def meaning(entry):
    """What a refusal means, where its numbers are told behind it."""
    # What these stand for needs no words then, nor when the refusal comes once it has.
    means = re.split("; |: A is", entry["means"])[0]
    return means[:1].lower() + means[1:]


def refusal(number, a=0, b=0):
    """A refusal of a request, in words."""
    entry = next((entry for entry in ENTRIES if entry.get("refusal") == str(number)), {"name": "Unknown", "means": ""})
    told = f": {entry['tells'].replace('A', str(a)).replace('B', str(b))}" if "tells" in entry else ""
    return f"refusal {number}, {entry['name']}: {meaning(entry)}{told}"


def end(status, place, command="serve", path=None):
    """How the program ended over a store: the status and its place, what that means, and what to do. A place of None means that the
    program said no status."""
    if place is None:
        return f"the program has ended with status {status}" + (", by a signal" if status < 0 else "")
    entry = entry_of(status, place, command)
    cause = why_not_opened(path) if status == 6 and path is not None else None
    told = [cause or entry.get("means", ""), "" if cause else entry.get("do", "")]
    return f"the program has ended with status {status} at {place}: " + ". ".join(filter(None, told))


def fault(why):
    """Why something failed, in words; of a file behind its name."""
    reason = isinstance(why, OSError) and why.strerror
    return f"{why.filename}: {reason}" if reason and why.filename else reason or str(why)


def why_not_opened(path):
    """What the system tells of a store's file that can't be opened; None where it tells nothing."""
    try:
        found = os.stat(path)
    except OSError as why:
        return f"{path}: {why.strerror}"
    if stat.S_ISDIR(found.st_mode):
        return f"{path} is a folder"
    if not stat.S_ISREG(found.st_mode):
        return f"{path} is no plain file"
    if not os.access(path, os.R_OK | os.W_OK):
        return f"{path} may not be both read and written"
    holder = holder_of(found)
    if holder is not None:
        return f"another run holds {path}" + (f", process {holder}" if holder > 0 else "")
    return f"the disk of {path} is full" if is_full(path) else None


def is_full(path):
    """Whether the disk of a store's file has no room for what one commit may write where the file has holes."""
    try:
        found = os.statvfs(path)
    except OSError:
        return False
    return found.f_bavail * found.f_frsize < LEAST_ROOM


def holder_of(found):
    """The process that holds a lock on a file, as the system tells it now; below 1 where it is hidden, None where there is no lock."""
    try:
        with open("/proc/locks", encoding="ascii") as file:
            locks = [line.split() for line in file]
    except OSError:
        return None
    return next((int(words[4]) for words in locks if words[1] != "->" and words[5].endswith(f":{found.st_ino}")), None)
