"""A model of edits, by docs/FORMATS.md alone: a book is a dict from names to a start, a step, a scale and a list of slots.

No edit changes a book in place. A reply is its word and its numbers.
"""
import struct

from store_format import MOST, page_count

SERIES = (("a", 0, 1, 0), ("b", -7000, 7, 2), ("temperature", 10**18, 2**31, 9), ("d.-_9", -(10**18), 1, 1))
MOST_AHEAD = 64  # the most edits that are done before the first of them is answered
COLUMNS = 4096  # slots that one view tells


def told(book):
    """The book as scripts/lib/store_format.py has it."""
    return [(name, *series) for name, series in book.items()]


def edited(book, line, pages):
    """The book after an edit in a store of so many pages, and the reply."""
    word, name, *rest = line.split(" ")
    if word == "create":
        if name in book:
            return book, ("refused", 9, 0, 0)
        return {**book, name: (*map(int, rest), [])}, ("done", 0)
    if name not in book:
        return book, ("refused", 8, 0, 0)
    start, step, scale, slots = book[name]
    if word == "append":
        slots = slots + [None if value == "-" else int(value) for value in rest]
    else:
        time_of, numbers = int(rest[0]) - start, [int(number) for number in rest[1:]]
        if time_of % step:
            return book, ("refused", 11, 0, 0)
        if time_of < 0:
            return book, ("refused", 12, 0, 0)
        slots = changed(slots, word, time_of // step, numbers)
    after = {**book, name: (start, step, scale, slots)}
    needed = page_count(told(after))
    return (book, ("refused", 21, needed, pages)) if needed > pages else (after, ("done", len(slots)))


def changed(slots, word, slot, numbers):
    """The slots after a set of numbers, or a clear of as many slots as the one number says."""
    values = numbers if word == "set" else [None] * max(min(numbers[0], len(slots) - slot), 0)
    missing = [None] * (slot - len(slots) if values else 0)
    return slots[:slot] + missing + values + slots[slot + len(values) :]


def text(reply):
    return (" ".join(map(str, reply)) + "\n").encode()


def frame(reply):
    word, *numbers = reply
    return struct.pack(">IBQ", 9, 1, *numbers) if word == "done" else struct.pack(">IBBQQ", 18, 2, *numbers)


def frames_of(output):
    """The whole frames at the front of bytes."""
    at = 0
    while at + 4 <= len(output) and at + 4 + int.from_bytes(output[at : at + 4], "big") <= len(output):
        end = at + 4 + int.from_bytes(output[at : at + 4], "big")
        yield output[at:end]
        at = end


def spelled(lines):
    return "".join(f"{line}\n" for line in lines).encode()


def value(draw):
    return draw.choice([draw.randint(-9, 9), draw.randint(-9, 9), draw.randint(-MOST, MOST), draw.choice((-MOST, MOST))])


def edit(draw, book, most):
    """A random edit of series of at most so many slots, most often one that is done."""
    name, start, step, scale = draw.choice(SERIES)
    if name not in book or draw.random() < 0.01:
        return f"create {name} {start} {step} {scale}" if draw.random() < 0.8 else f"append {name} 1"
    length, kind = len(book[name][3]), draw.random()
    count = draw.choice([1, 1, 2, 20, 128, 256])
    if kind < 0.4 and length + count <= most:
        return f"append {name} " + " ".join("-" if draw.random() < 0.2 else str(value(draw)) for _ in range(count))
    if kind < 0.7:
        slot = draw.randrange(draw.choice([length + 1, length + 1, length + 300, most]))
        at = start + min(slot, most - count) * step + (draw.random() < 0.02)
        return f"set {name} {at} " + " ".join(str(value(draw)) for _ in range(count))
    return f"clear {name} {start + draw.randrange(-1, length + 1) * step} {draw.choice([0, 1, 128, 1000, 4096])}"
