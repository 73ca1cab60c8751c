"""The least and the greatest value of each column, by the coefficients of a view, are those of a view's rows."""
import random
import subprocess
import tempfile
import unittest

from gateway_server import PROGRAM, T, require_all

require_all()

from zurtkvani_client import frames  # noqa: E402
from zurtkvani_client.gateway import child, extremes  # noqa: E402


@unittest.skipUnless(extremes.numpy, "numpy isn't installed")
class Extremes(unittest.TestCase):
    def setUp(self):
        folder = tempfile.TemporaryDirectory()
        self.addCleanup(folder.cleanup)
        path = f"{folder.name}/store"
        with open(path, "wb") as file:
            file.truncate(2**24)
        subprocess.run([PROGRAM, path, "init"], stdin=subprocess.DEVNULL, check=True)
        self.host = subprocess.Popen([PROGRAM, path, child.COMMAND], stdin=subprocess.PIPE, stdout=subprocess.PIPE)
        self.addCleanup(self.end)
        self.ask([child.OPEN])

    def end(self):
        self.host.communicate()

    def ask(self, lines):
        self.host.stdin.write(b"\n".join(lines) + b"\n")
        self.host.stdin.flush()
        heads = ((head := self.host.stdout.read(4)) + self.host.stdout.read(int.from_bytes(head, "big")) for _ in lines)
        return list(heads)

    def require_same(self, name, w, t0, t1):
        rows = list(child.rows_of(self.ask([child.view_line(name, w, 1, t0, t1)])[0]))
        frame = self.ask(extremes.view_lines(child.WHOLE, name, w, t0, t1))[1]
        for place in (2, 3):
            self.assertEqual(extremes.pairs_of(frame, place == 3), [(row[0], row[place]) for row in rows], (name, w, t0, t1))
        return len(rows)

    def filled(self, name, step, share, draw):
        """A series of which some slots have values, in pieces with gaps between, far ones too."""
        slot = draw.randrange(300)
        self.ask([b"create %b %d %d 0" % (name.encode(), T, step)])
        for _ in range(40):
            values = [draw.choice((draw.randrange(-9, 9), draw.randrange(-(10**18), 10**18))) for _ in range(draw.randrange(1, 250))]
            self.ask([b"set %b %d %b" % (name.encode(), T + slot * step, b" ".join(b"%d" % value for value in values))])
            slot += len(values) + (0 if draw.random() < share else draw.randrange(1, 900))
        return slot

    def test_extremes_are_those_of_rows(self):
        draw, found = random.Random(6), 0
        for name, step, share in (("dense", 1, 1), ("gaps", 7, 0.5), ("sparse", 60, 0)):
            slots = self.filled(name, step, share, draw)
            for _ in range(60):
                w, width = draw.choice((1, 2, 31, 500, 4096)), draw.randrange(1, 3000)
                t0 = T + draw.randrange(-500, slots * step)
                found += self.require_same(name, w, t0, t0 + w * width)
        self.assertGreater(found, 1000)

    def test_ends_of_what_a_store_can_hold(self):
        most = 10**18
        self.ask([b"create early %d 1 0" % -most, b"create late %d 2147483648 0" % (most - 1), b"create one 0 1 0", b"create none 0 1 0"])
        self.ask([b"set early %d %d %d" % (-most, most, -most), b"set early %d 5" % (-most + 2**35 - 1), b"set late %d 3 -4" % (most - 1), b"set one 0 7"])
        for name in ("early", "late", "one", "none"):
            for w, t0, t1 in ((4096, -most, -most + 4096 * 2**24), (4000, -2 * most, 2 * most), (1, -2 * most, 2 * most), (1000, most - 1, most + 10**15 - 1)):
                self.require_same(name, w, t0, t1)

    def test_what_is_refused_or_cut_is_told(self):
        with self.assertRaises(child.Refused):
            extremes.pairs_of(self.ask(extremes.view_lines(child.WHOLE, "none", 1, 0, 1))[1], True)
        self.filled("some", 1, 0.5, random.Random(7))
        frame = self.ask(extremes.view_lines(child.WHOLE, "some", 100, T, T + 10_000))[1]
        count = int.from_bytes(frame[84:88], "big")
        for at in range(count):
            cut = frame[:84] + (count - 1).to_bytes(4, "big") + frame[88 : 88 + 25 * at] + frame[113 + 25 * at :]
            with self.assertRaises(frames.Stopped):
                extremes.pairs_of(cut, at % 2 == 0)


if __name__ == "__main__":
    unittest.main()
