"""The words for statuses and refusals: each has some, and the causes of status 6 are told apart."""
import os
import re
import sys
import tempfile
import unittest

ROOT = os.path.dirname(os.path.dirname(os.path.dirname(os.path.dirname(os.path.realpath(__file__)))))
PROGRAM = os.path.join(ROOT, "crates/chart_program/out/chart_program")
sys.path.insert(0, os.path.join(ROOT, "clients/python"))

from zurtkvani_client import Ended, Store, words  # noqa: E402


def numbered(page, heading):
    """The numbers of the rows of the first table behind a heading of a page."""
    with open(os.path.join(ROOT, "docs", page), encoding="utf-8") as file:
        text = file.read().partition(f"\n## {heading}\n")[2]
    table = re.search(r"(?:^\|.*\n)+", text, re.MULTILINE)[0]
    return {int(number) for number in re.findall(r"^\| (\d+) \|", table, re.MULTILINE)}


class Words(unittest.TestCase):
    def test_each_status_and_refusal_of_the_pages_has_words(self):
        for kind, page, heading in (("status", "USE.md", "Exit statuses"), ("refusal", "LIMITS.md", "Refusals")):
            self.assertEqual({int(entry[kind]) for entry in words.ENTRIES if kind in entry}, numbered(page, heading))
        self.assertEqual(len(words.NAMES), len(numbered("LIMITS.md", "Refusals")))

    def test_words_of_refusals(self):
        self.assertEqual(words.refusal(8), "refusal 8, UnknownSeries: no series has the name")
        self.assertEqual(words.refusal(21, 9, 7), "refusal 21, Full: the edited book would need more pages than there are: 9 of 7")
        self.assertEqual(words.refusal(2, 5), "refusal 2, BadLine: the line isn't a request: at byte 5")

    def test_words_of_faults(self):
        with self.assertRaises(OSError) as met:
            os.stat("/nonexistent/file")
        self.assertEqual(words.fault(met.exception), "/nonexistent/file: No such file or directory")
        self.assertEqual(words.fault(ValueError("why")), "why")
        with tempfile.TemporaryDirectory() as folder, self.assertRaisesRegex(FileNotFoundError, "chart program can't be run"):
            Store.make(os.path.join(folder, "a.store"), program="/nonexistent/chart")

    def test_words_of_statuses(self):
        self.assertIn("isn't a store, or it was cut", words.end(7, 66))
        self.assertIn("isn't what a store has there", words.end(7, 67))
        self.assertIn("isn't there", words.end(14, 8, "export"))

    def test_causes_of_status_6(self):
        with tempfile.TemporaryDirectory() as folder:
            path = os.path.join(folder, "a.store")
            self.assertIn(f"{path}: No such file or directory", self.end(path))
            self.assertIn(f"{folder} is a folder", self.end(folder))
            with Store.make(path, program=PROGRAM) as store:
                store.create("a", 0, 1)  # once it is answered the run holds the store
                self.assertIn(f"another run holds {path}, process {store.run.child.pid}", self.end(path))
            fifo = os.path.join(folder, "fifo")
            os.mkfifo(fifo)
            self.assertIn("is no plain file", words.end(6, 0, path=fifo))

    def end(self, path):
        """What is said where the program can't open a store."""
        with self.assertRaises(Ended) as met:
            Store(path, program=PROGRAM).series()
        self.assertEqual(met.exception.status, 6)
        return str(met.exception)


if __name__ == "__main__":
    unittest.main()
