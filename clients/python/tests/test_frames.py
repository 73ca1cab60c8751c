"""Frames of a session that follows its view: the worked stream of docs/FORMATS.md, and what breaks a rule."""
import io
import pathlib
import struct
import sys
import unittest

sys.path.insert(0, str(pathlib.Path(__file__).resolve().parent.parent))

from zurtkvani_client.frames import Done, Fields, Live, Refused, Stopped, accept  # noqa: E402
from zurtkvani_client.told import Catalog, Listed, Swept, Values  # noqa: E402

OPENED = "00000009 03 00000001 00010000"
# 4, 7 and 2 over 2 to 7; then 1 in the place of the 2, and of what the view needs the one coefficient that changed.
VIEW = """
    0000011C 05 00000001 0000 0004 0004 0000000000000000 0000000000000004 0000000000000002 0000000000000007
    0000000000000000 00000001 0000000000000004 01 0000000000000002 0000000000000007 00000008
    0000070000000000 01 0000000000000000 0000000000000000
    0000060000000000 01 0000000000000000 0000000000000000
    0000050000000000 01 0000000000000000 0000000000000000
    0000040000000000 01 0000000000000000 0000000000000000
    0000030000000000 01 0000000000000000 0000000000000000
    0000020000000000 03 0000000000000002 0000000000000005
    0000010000000000 03 FFFFFFFFFFFFFFFD FFFFFFFFFFFFFFFD
    0000010000000001 01 0000000000000000 0000000000000000
"""
LIVE = "00000006 07 00000001 01"
DONE = "00000009 01 0000000000000004"
PUSH = """
    0000006D 05 00000001 0000 0004 0004 0000000000000000 0000000000000004 0000000000000001 0000000000000007
    0000000000000000 00000001 0000000000000004 01 0000000000000001 0000000000000007 00000001
    0000020000000000 03 0000000000000003 0000000000000006
"""


# 10 pages, 5 in use; series a, 4 slots of which the values go from 2 to 7; and series b.c without slots.
CATALOG = """
    00000097 08 0000000A 00000005 0002
    01 61000000000000000000000000000000000000000000000000000000000000 00
    0000000000000000 00000001 0000000000000004 01 0000000000000002 0000000000000007
    03 622E6300000000000000000000000000000000000000000000000000000000 02
    FFFFFFFFFFFFFFFB 0000003C 0000000000000000 00 0000000000000000 0000000000000000
"""
# Of series 1 the slots 5, 6 and 9; from the time 40 on more are left.
VALUES = """
    00000048 09 0001 01 0000000000000028 0002 0003
    0000000000000005 0000000000000002 0000000000000009 0000000000000001
    0000000000000004 FFFFFFFFFFFFFFFF 0000000000000007
"""
SWEPT = "00000008 0A 0040 00000063 01"


def longest(start, step, slots=2**35):
    """A view of 2^35 slots, of which the last but one alone has a value, on the four columns before the last slot."""
    end = min(start + (2**35 - 1) * step, 2 * 10**18)
    data = struct.pack(">BIHHHqqqqqIQBqqI", 5, 1, 0, 4, 4, end - 4 * step, end, 0, 3, start, step, slots, 1, 2, 2, 35)
    for level in range(35, 0, -1):
        # The value is in the right half, and on level 1 in the left one.
        data += struct.pack(">QBqq", level * 2**40 + 2 ** (35 - level) - 1, 2 if level > 1 else 1, 0, 0)
    return (struct.pack(">I", len(data)) + data).hex()


def read_all(*frames):
    """What a client makes of frames: each with its picture."""
    data = bytes.fromhex("".join(frames))
    fields, sessions, read = Fields(io.BytesIO(data)), {}, []
    while fields.offset < len(data):
        read.append(accept(fields, sessions))
    return read


class Frames(unittest.TestCase):
    def test_a_push_is_drawn_by_what_changed(self):
        read = read_all(OPENED, VIEW, LIVE, DONE, PUSH)
        self.assertEqual(read[2], (Live(1, True), None))
        pictures = [picture.to_pbm() for _, picture in read if picture]
        self.assertEqual(pictures, [b"P4\n4 4\n" + bytes.fromhex("4040A020")] * 2)

    def test_covers_come_before_the_picture(self):
        covers = []

        def show(view, session):
            covers.extend(view.cover(session, taken).to_pbm() for taken in (0, 7, 8))

        data = bytes.fromhex(OPENED + VIEW)
        fields, sessions = Fields(io.BytesIO(data)), {}
        accept(fields, sessions)
        _, picture = accept(fields, sessions, show)
        self.assertEqual(covers, [b"P4\n4 4\n" + bytes.fromhex(rows) for rows in ("F0F0F0F0", "F0F0F070", "E0E0E060")])
        self.assertEqual(picture.to_pbm(), b"P4\n4 4\n" + bytes.fromhex("4040A020"))

    def test_a_held_coefficient_of_a_key_within_a_column_is_not_shown(self):
        # The push sends (2, 0) alone; at 0 nothing is shown below the keys across columns before it.
        covers = []
        data = bytes.fromhex(OPENED + VIEW + PUSH)
        fields, sessions = Fields(io.BytesIO(data)), {}
        accept(fields, sessions)
        accept(fields, sessions)
        accept(fields, sessions, lambda view, session: covers.append(view.cover(session, 0).to_pbm()))
        self.assertEqual(covers, [b"P4\n4 4\n" + bytes.fromhex("F0F0F0F0")])

    def test_an_unfollowed_session_goes_on(self):
        self.assertEqual(read_all(OPENED, "00000006 07 00000001 00")[1], (Live(1, False), None))

    def test_a_session_that_is_not_open_follows_nothing(self):
        with self.assertRaisesRegex(Stopped, "session 1 isn't open"):
            read_all(LIVE)

    def test_a_following_is_0_or_1(self):
        with self.assertRaisesRegex(Stopped, "the field at byte 22 breaks its rule"):
            read_all(OPENED, "00000006 07 00000001 02")

    def test_a_refusal_to_follow_has_both_numbers(self):
        # A view of 4 columns may need 13 * 35 coefficients, and the cache keeps 100.
        self.assertEqual(read_all("00000012 02 16 00000000000001C7 0000000000000064"), [(Refused(22, 455, 100), None)])

    def test_a_sum_is_refused_by_numbers_of_its_own(self):
        for number in (23, 24):
            self.assertEqual(read_all(f"00000012 02 {number:02X} {0:016X} {0:016X}"), [(Refused(number, 0, 0), None)])
        for changed in (f"19 {0:016X} {0:016X}", f"17 {1:016X} {0:016X}", f"18 {0:016X} {1:016X}"):
            with self.assertRaisesRegex(Stopped, "breaks its rule"):
                read_all("00000012 02", changed)

    def test_reports_have_no_picture_and_name_no_session(self):
        series = [Listed("a", 0, 0, 1, 4, (2, 7)), Listed("b.c", 2, -5, 60, 0, None)]
        told = [Catalog(10, 5, series), Values(1, 40, [(5, [4, -1]), (9, [7])]), Swept(64, 99, True)]
        self.assertEqual(read_all(CATALOG, VALUES, SWEPT), [(report, None) for report in told])
        self.assertEqual(read_all("0000000B 08 00000000 00000000 0000"), [(Catalog(0, 0, []), None)])
        self.assertEqual(read_all("00000010 09 0000 00 0000000000000000 0000 0000"), [(Values(0, None, []), None)])

    def test_reports_between_views_change_nothing(self):
        read = read_all(OPENED, VIEW, CATALOG, VALUES, SWEPT, DONE, PUSH)
        pictures = [picture.to_pbm() for _, picture in read if picture]
        self.assertEqual(pictures, [b"P4\n4 4\n" + bytes.fromhex("4040A020")] * 2)

    def test_reports_that_break_a_rule(self):
        def changed(report, at, byte):
            data = bytearray.fromhex(report)
            data[at] = byte
            return data.hex()

        for report, at, byte, offset in (
            (CATALOG, 3, 0x96, 0),  # a length of no frame
            (CATALOG, 14, 3, 13),  # three series in the length of two
            (CATALOG, 15, 0, 15),  # no name
            (CATALOG, 15, 2, 16),  # a name with a 0 in it
            (CATALOG, 16, 0x2F, 16),  # a slash in a name
            (CATALOG, 20, 1, 16),  # no 0 behind a name
            (CATALOG, 47, 10, 47),  # ten decimals
            (CATALOG, 138, 1, 138),  # a value without a slot
            (VALUES, 3, 0x20, 0),  # a run without a value
            (VALUES, 3, 0x44, 0),  # half a value
            (VALUES, 5, 2, 5),  # series 513
            (VALUES, 7, 0, 8),  # a time from which to ask where none is left
            (VALUES, 17, 1, 18),  # one run in the length of two
            (VALUES, 35, 3, 28),  # all values in the first run of two
            (VALUES, 35, 0, 28),  # a run without a slot
            (VALUES, 43, 7, 36),  # a run that goes on with the one before
            (VALUES, 51, 2, 44),  # more values than are left
            (VALUES, 42, 0x10, 36),  # a slot 4,096 behind the first one
            (SWEPT, 6, 65, 5),  # 65 clears
            (SWEPT, 11, 2, 11),
        ):
            with self.subTest(at=at, byte=byte, report=report[:12]), self.assertRaisesRegex(Stopped, f"the field at byte {offset} breaks its rule"):
                read_all(changed(report, at, byte))

    def test_a_series_reaches_the_latest_time(self):
        start = 2 * 10**18 - (2**35 - 1) * 29103831
        for view in (longest(0, 1), longest(-5, 2**24 + 1), longest(start, 29103831)):
            self.assertEqual(read_all(OPENED, view)[1][1].to_pbm(), b"P4\n4 4\n" + bytes.fromhex("00100000"))
        for view in (longest(start + 1, 29103831), longest(0, 1, 2**35 + 1)):
            with self.assertRaisesRegex(Stopped, "the field at byte 72 breaks its rule"):
                read_all(OPENED, view)

    def test_an_edit_of_the_longest_series(self):
        self.assertEqual(read_all("00000009 01 0000000800000000"), [(Done(2**35), None)])
        with self.assertRaisesRegex(Stopped, "the field at byte 5 breaks its rule"):
            read_all("00000009 01 0000000800000001")


if __name__ == "__main__":
    unittest.main()
