"""The programs that draw by the proved client, as other languages have it: chart_client.py over a library, and proved_draw.js over the module."""
import os
import shutil
import sys

from built_program import ROOT

IN_PYTHON = os.path.join(ROOT, "clients/python/chart_client.py")
UNDER_NODE = os.path.join(ROOT, "clients/web/proved_draw.js")


def ways_in(folder, told):
    """The words that run each way, by its name. What is passed over is told, in this script's name."""
    libraries = {"LLVM": "libchart_client.so", "Rattle": "rattle/libchart_client.so"}
    for name, file in libraries.items():
        path = os.path.join(folder, file)
        if os.path.exists(path):
            yield name, [sys.executable, IN_PYTHON, "--library", path]
        elif name == "LLVM":
            sys.exit(f"{told}: {path} isn't there; clients/native/build makes it")
        else:
            print(f"{told}: {path} isn't there, so it is passed over")
    module = os.path.join(folder, "chart_client.wasm")
    if not os.path.exists(module):
        print(f"{told}: {module} isn't there, so the module is passed over; wasm-opt makes it, of Debian's package binaryen")
    elif not shutil.which("node"):
        print(f"{told}: there is no node, so the module is passed over")
    else:
        yield "WebAssembly", ["node", UNDER_NODE, module]
