"""A file that is replaced as a whole, so that a crash leaves the old one or the new one."""
import os


def replace(path, text):
    """Puts a text in a file's place, and brings it to the disk. Blocks."""
    with open(path + ".new", "w", encoding="utf-8") as file:
        file.write(text)
        file.flush()
        os.fsync(file.fileno())
    os.rename(path + ".new", path)
    sync_folder(os.path.dirname(path))


def sync_folder(folder):
    """Brings what stands in a folder to the disk: the names of its files."""
    handle = os.open(folder, os.O_RDONLY | os.O_DIRECTORY)
    try:
        os.fsync(handle)
    finally:
        os.close(handle)
