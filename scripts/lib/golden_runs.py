"""The files of a run of golden/, which a script beside them may compute."""
import os
import subprocess
import sys

from built_program import ROOT, bytes_in

GOLDEN = os.path.join(ROOT, "golden")
COMPUTING = {**os.environ, "PYTHONPATH": os.path.dirname(os.path.realpath(__file__)), "PYTHONDONTWRITEBYTECODE": "1"}


def bytes_of(folder, name):
    """What a file of a run holds, or what its script writes; nothing where there is neither."""
    path = os.path.join(folder, name)
    if os.path.exists(path + ".py"):
        return subprocess.run([sys.executable, path + ".py"], stdout=subprocess.PIPE, env=COMPUTING, check=True).stdout
    return bytes_in(path)
