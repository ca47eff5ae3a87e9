"""The folder of the repository, and reading and writing of files."""
import contextlib
import os
import shutil
import tempfile

from tests import TOP  # noqa: F401, what scripts join to the name of a file once they work in another folder


def read(path):
    """The text of a file."""
    with open(path, encoding="utf-8") as file:
        return file.read()


def read_bytes(path):
    with open(path, "rb") as file:
        return file.read()


def write(path, data):
    """Writes bytes or a text, with the folders that the path needs, and returns the path."""
    os.makedirs(os.path.dirname(path) or ".", exist_ok=True)
    with open(path, "wb") as file:
        file.write(data if isinstance(data, bytes) else data.encode())
    return path


@contextlib.contextmanager
def new_folder(copied=""):
    """A new folder, in which the script works, and which is gone at the end; or a copy of this folder of the repository in it, without
    what Python keeps of programs there."""
    before = os.getcwd()
    with tempfile.TemporaryDirectory() as folder:
        if copied:
            shutil.copytree(f"{TOP}/{copied}", f"{folder}/{copied}", ignore=shutil.ignore_patterns("__pycache__"))
        os.chdir(f"{folder}/{copied}")
        try:
            yield folder
        finally:
            os.chdir(before)
