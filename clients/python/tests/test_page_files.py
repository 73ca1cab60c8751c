"""The files of the page: each that another one names is there, is handed out by its servers, and is installed."""
import os
import re
import subprocess
import sys
import unittest

ROOT = os.path.dirname(os.path.dirname(os.path.dirname(os.path.dirname(os.path.realpath(__file__)))))
sys.path.insert(0, os.path.join(ROOT, "clients/python"))

from zurtkvani_client import page_rules  # noqa: E402

WEB = os.path.join(ROOT, "clients/web")
NAMED = re.compile(r'(?:from|import|src=|href=|URL\()\s*"([^":]+\.(?:js|css))"')


def named_by(path):
    """The files that a file names, as they stand in the page's folder."""
    with open(os.path.join(WEB, path), encoding="utf-8") as file:
        text = file.read()
    return {os.path.normpath(os.path.join(os.path.dirname(path), name)) for name in NAMED.findall(text)}


def files_of_page():
    found, left = set(), ["index.html"]
    while left:
        path = left.pop()
        if path not in found:
            found.add(path)
            left += named_by(path)
    return found


def installed():
    """What the script `install` puts of the page's folder."""
    with open(os.path.join(ROOT, "install"), encoding="utf-8") as file:
        words = re.findall(r'put 644 "\$own/clients/web\S*" (.*)', file.read())
    found = subprocess.run(["bash", "-c", f"echo {' '.join(words)}"], cwd=ROOT, stdout=subprocess.PIPE, check=True).stdout.decode().split()
    return {os.path.relpath(path, "clients/web") for path in found}


class Files(unittest.TestCase):
    def test_each_file_is_handed_out_and_installed(self):
        files = files_of_page()
        self.assertGreater(len(files), 20)
        for path in files:
            self.assertTrue(os.path.exists(os.path.join(WEB, path)), path)
            address = "/" if path == "index.html" else f"/{path}"
            self.assertEqual(os.path.realpath(page_rules.file_of(address, WEB)[0]), os.path.join(WEB, path))
        self.assertLessEqual(files, installed())


if __name__ == "__main__":
    unittest.main()
