"""Reads docs/statuses.txt: the words for each exit status of the program, and for each refusal."""
import os

from built_program import ROOT

PATH = os.path.join(ROOT, "docs/statuses.txt")


def entries():
    """The entries of the file in their order, each as its texts by their keys."""
    with open(PATH, encoding="utf-8") as file:
        text = "".join(line for line in file if not line.startswith("#"))
    for entry in text.strip().split("\n\n"):
        yield dict(line.split(": ", 1) for line in entry.strip().split("\n"))


def words_of_status(status, place, command):
    """The words for the status and the place that a command ended with, or None."""
    for entry in entries():
        is_for = entry.get("at", str(place)) == str(place) and command in entry.get("of", command).split()
        if entry.get("status") == str(status) and is_for:
            return entry
    return None


def cause_of_refusal(number):
    """What the refusal of a number means, without what is said of its place among others."""
    return next((entry["means"].partition("; ")[0] for entry in entries() if entry.get("refusal") == str(number)), f"refusal {number}")
