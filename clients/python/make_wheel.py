"""Makes the package's wheel, as pip asks for it: a zip of the modules, of the words for statuses, of the proved client's library where
it was built, and what the wheel says of itself."""
import base64
import hashlib
import os
import re
import sysconfig
import zipfile

HERE = os.path.dirname(os.path.realpath(__file__))
PACKAGE = "zurtkvani_client"
LIBRARY = "libchart_client.so"
WORDS = os.path.join(HERE, "../../docs/statuses.txt")
PLACES = (os.path.join(HERE, PACKAGE, LIBRARY), os.path.join(HERE, "../../dist", LIBRARY))


def stated(key):
    """What pyproject.toml states for a key; the standard library reads TOML from Python 3.11 on alone."""
    with open(os.path.join(HERE, "pyproject.toml"), encoding="utf-8") as file:
        return re.search(rf'^{key} = "(.*)"$', file.read(), re.MULTILINE)[1]


def metadata():
    return (
        f"Metadata-Version: 2.1\nName: {stated('name')}\nVersion: {stated('version')}\n"
        f"Summary: {stated('description')}\nRequires-Python: {stated('requires-python')}\n"
    )


def write_wheel(path, info, files):
    """Writes the files into a wheel, and behind them the record with a sum of each."""
    record = f"{info}/RECORD"
    lines = ""
    with zipfile.ZipFile(path, "w", zipfile.ZIP_DEFLATED) as wheel:
        for name, data in files.items():
            wheel.writestr(zipfile.ZipInfo(name), data)
            total = base64.urlsafe_b64encode(hashlib.sha256(data).digest()).decode().rstrip("=")
            lines += f"{name},sha256={total},{len(data)}\n"
        wheel.writestr(zipfile.ZipInfo(record), lines + f"{record},,\n")


def build_wheel(wheel_directory, config_settings=None, metadata_directory=None):
    """The hook that pip calls; gives the name of the wheel."""
    files = {}
    for folder, _, names in sorted(os.walk(os.path.join(HERE, PACKAGE))):
        for path in (os.path.join(folder, name) for name in sorted(names) if name.endswith(".py")):
            with open(path, "rb") as file:
                files[os.path.relpath(path, HERE)] = file.read()
    with open(WORDS, "rb") as file:
        files[f"{PACKAGE}/statuses.txt"] = file.read()
    tag, is_pure = "py3-none-any", "true"
    library = next(filter(os.path.exists, PLACES), None)
    if library and sysconfig.get_platform() == "linux-x86_64":
        tag, is_pure = "py3-none-linux_x86_64", "false"
        with open(library, "rb") as file:
            files[f"{PACKAGE}/{LIBRARY}"] = file.read()
    release = f"{PACKAGE}-{stated('version')}"
    info = f"{release}.dist-info"
    files[f"{info}/METADATA"] = metadata().encode()
    files[f"{info}/WHEEL"] = f"Wheel-Version: 1.0\nGenerator: make_wheel\nRoot-Is-Purelib: {is_pure}\nTag: {tag}\n".encode()
    files[f"{info}/entry_points.txt"] = f"[console_scripts]\nzurtkvani = {stated('zurtkvani')}\n".encode()
    wheel = f"{release}-{tag}.whl"
    write_wheel(os.path.join(wheel_directory, wheel), info, files)
    return wheel
