"""How tests wait: for what they assert, with one limit that is a guard alone, so that no machine is too slow for them."""
import time

SECONDS = 300


def until(holds, seconds=SECONDS):
    """Waits until `holds()` gives something that is true, and gives that; behind so many seconds whatever it gives."""
    ends = time.monotonic() + seconds
    while not (found := holds()) and time.monotonic() < ends:
        time.sleep(0.02)
    return found
