"""The proved client as a shared library, which CHART_LIBRARY names, on the worked streams of docs/FORMATS.md."""
import ctypes
import io
import os
import pathlib
import sys
import tempfile
import unittest
import zipfile

HERE = pathlib.Path(__file__).resolve().parent
sys.path.insert(0, str(HERE.parent))
sys.path.insert(1, str(HERE))

import make_wheel  # noqa: E402
from test_frames import DONE, LIVE, OPENED, PUSH, VIEW  # noqa: E402
from zurtkvani_client.client import ByHand, Proved, View, load  # noqa: E402
from zurtkvani_client.frames import Cut, Done, Live, Refused, Stopped  # noqa: E402

LIBRARY = os.environ.get("CHART_LIBRARY", "")
# Three columns, of which the middle one has values.
ROWS = "0000003D 06 00000001 0003 0002 FFFFFFFFFFFFFFFF 0000000000000005 0001 0001 0000000000000001 FFFFFFFFFFFFFFFE 0000000000000004 0000000000000002"


@unittest.skipUnless(os.path.exists(LIBRARY), "CHART_LIBRARY names no library; clients/native/build makes one")
class Library(unittest.TestCase):
    def over(self, *frames):
        self.stream = io.BytesIO(bytes.fromhex("".join(frames)))
        return Proved(self.stream, load(LIBRARY))

    def test_frames_and_pictures(self):
        client = self.over(OPENED, VIEW, LIVE, DONE, PUSH, "00000012 02 16 00000000000001C7 0000000000000064")
        read = [client.accept() for _ in range(6)]
        self.assertEqual(read[1][0], View(1, 0, 4, 4, 0, 4, 2, 7, 0, 1, 4, 8))
        self.assertEqual([read[2][0], read[3][0], read[5][0]], [Live(1, True), Done(4), Refused(22, 455, 100)])
        picture = b"P4\n4 4\n" + bytes.fromhex("4040A020")
        self.assertEqual([drawn and drawn.to_pbm() for _, drawn in read], [None, picture, None, None, picture, None])
        by_hand = ByHand(io.BytesIO(bytes.fromhex(OPENED + VIEW)))
        by_hand.accept()
        other = by_hand.accept()[1]
        drawn = read[1][1]
        self.assertEqual((drawn.pixels, drawn.to_png(), drawn.lo, drawn.hi), (other.pixels, other.to_png(), 2, 7))

    def test_the_values_of_columns(self):
        frames = OPENED, VIEW, PUSH, DONE, ROWS
        by_hand = ByHand(io.BytesIO(bytes.fromhex("".join(frames))))
        for client in self.over(*frames), by_hand:
            drawn = [picture for _, picture in (client.accept() for _ in range(5)) if picture]
            self.assertEqual([[picture.column(x) for x in range(-1, picture.w + 1)] for picture in drawn], [
                [None, (4, 4), (7, 7), (2, 2), None, None], [None, (4, 4), (7, 7), (1, 1), None, None], [None, None, (-2, 4), None, None],
            ])

    def test_a_column_of_no_picture(self):
        client = self.over(OPENED, VIEW, DONE)

        def told(column):
            answer = client.ask("column", column)
            return answer.code, answer.lo, answer.hi

        def of_cover(view, client):
            self.assertIsNone(client.cover(view, 8).column(0))
            self.assertEqual(told(0), (0, 0, 0))

        client.accept()
        self.assertEqual(told(0), (0, 0, 0))
        client.accept(of_cover)
        client.accept()
        self.assertEqual([told(column) for column in (0, 1, 3, 4, 65536, 2**32 - 1)], [(1, 4, 4), (1, 7, 7)] + 4 * [(0, 0, 0)])
        client.calls.chart_close(ctypes.byref(client.handle))
        with self.assertRaisesRegex(Stopped, "the client is closed"):
            client.ask("column", 0)

    def test_covers_come_before_the_picture(self):
        covers = []
        client = self.over(OPENED, VIEW)
        client.accept()
        client.accept(lambda view, client: covers.extend(client.cover(view, taken).to_pbm() for taken in (0, 7, 8)))
        self.assertEqual(covers, [b"P4\n4 4\n" + bytes.fromhex(rows) for rows in ("F0F0F0F0", "F0F0F070", "E0E0E060")])

    def test_what_cannot_be_drawn(self):
        for stream, why in (
            (LIVE, "session 1 isn't open"),
            ("00000006 07 00000001 02", "the field at byte 9 breaks its rule"),
            ("00000000", "the field at byte 0 breaks its rule"),
        ):
            with self.assertRaisesRegex(Stopped, why):
                self.over(stream).accept()
        for cut in ("", "0000", OPENED[:20]):
            with self.assertRaises(Cut):
                self.over(cut).accept()

    def test_a_closed_client_says_so(self):
        client = self.over(OPENED)
        client.calls.chart_close(ctypes.byref(client.handle))
        self.assertFalse(client.handle.value)
        with self.assertRaisesRegex(Stopped, "the client is closed"):
            client.ask("next")

    def test_a_picture_is_copied_whole_or_not_at_all(self):
        client = self.over(OPENED, VIEW)
        client.accept()
        client.accept()
        room = (ctypes.c_char * 12)(*b"x" * 12)
        for size in (0, 10, 12):
            self.assertFalse(client.calls.chart_picture(ctypes.byref(client.handle), room, size))
        self.assertEqual(room.raw, b"x" * 12)
        self.assertTrue(client.calls.chart_picture(ctypes.byref(client.handle), room, 11))

    def test_a_wheel_has_the_library(self):
        places = make_wheel.PLACES
        try:
            with tempfile.TemporaryDirectory() as folder:
                make_wheel.PLACES = (LIBRARY,)
                with zipfile.ZipFile(os.path.join(folder, make_wheel.build_wheel(folder))) as wheel:
                    self.assertEqual(wheel.read("zurtkvani_client/libchart_client.so"), pathlib.Path(LIBRARY).read_bytes())
        finally:
            make_wheel.PLACES = places


if __name__ == "__main__":
    unittest.main()
