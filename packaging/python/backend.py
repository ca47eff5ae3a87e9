"""Builds the wheel of v7, by the standard library alone. Two wheels of the same files have the same bytes.

usage: python3 packaging/python/backend.py FOLDER [LIBRARY]      or by pip, which reads pyproject.toml. LIBRARY is what the wheel
                                                                contains, without it build/libv7.so.0

The tag of the wheel follows from what the library needs of the C library: manylinux2014 is glibc 2.17. A library that needs a newer
one, or another library, is refused.
"""
import base64
import hashlib
import os
import re
import subprocess
import sys
import zipfile

HERE = os.path.dirname(os.path.abspath(__file__))
TOP = os.path.normpath(os.path.join(HERE, "..", ".."))
# two names of one platform: pip before 20.3 knows only the second one
PLATFORMS = "manylinux_2_17_x86_64.manylinux2014_x86_64"
TAG = f"py3-none-{PLATFORMS}"


def read(*path):
    with open(os.path.join(TOP, *path), "rb") as file:
        return file.read()


def settings():
    """The name, the purpose and the Python that pyproject.toml gives, and the version of v7.h."""
    text = read("packaging", "python", "pyproject.toml").decode()
    found = {key: re.search(f'^{key} = "(.*)"$', text, re.M)[1] for key in ("name", "description", "requires-python")}
    return {**found, "version": re.search(r'^#define V7_VERSION "(.*)"$', read("include", "v7.h").decode(), re.M)[1]}


def needs(library):
    """The libraries that a library needs, and the newest version of the C library of which it has a symbol."""
    said = subprocess.check_output(["readelf", "-dVW", library], text=True, env={**os.environ, "LC_ALL": "C"})
    versions = [tuple(map(int, found.split("."))) for found in re.findall(r"Name: GLIBC_([0-9.]+) ", said)]
    return re.findall(r"\(NEEDED\).*\[(.*)\]", said), max(versions, default=(2,))


def check_needs(library):
    """Refuses a library that does not run wherever manylinux2014 does."""
    names, version = needs(library)
    if set(names) - {"libc.so.6"} or version > (2, 17):
        sys.exit(f"{library} needs {' '.join(names)} and glibc {'.'.join(map(str, version))}: that is not manylinux2014")


def build_wheel(folder, config_settings=None, metadata_directory=None):
    library = (config_settings or {}).get("library") or os.path.join(TOP, "build", "libv7.so.0")
    check_needs(library)
    said = settings()
    stem = f"{said['name']}-{said['version']}"
    metadata = (f"Metadata-Version: 2.1\nName: {said['name']}\nVersion: {said['version']}\nSummary: {said['description']}\n"
                f"Requires-Python: {said['requires-python']}\nDescription-Content-Type: text/markdown\n\n")
    tags = "".join(f"Tag: {TAG[:-len(PLATFORMS)]}{platform}\n" for platform in PLATFORMS.split("."))
    files = {
        "v7/__init__.py": read("packaging", "python", "v7.py"),
        "v7/libv7.so.0": read(library),
        "v7/py.typed": b"",
        f"{stem}.dist-info/METADATA": metadata.encode() + read("packaging", "python", "README.md"),
        f"{stem}.dist-info/WHEEL": f"Wheel-Version: 1.0\nGenerator: v7\nRoot-Is-Purelib: false\n{tags}".encode(),
    }
    sums = {name: base64.urlsafe_b64encode(hashlib.sha256(data).digest()).rstrip(b"=").decode() for name, data in files.items()}
    record = f"{stem}.dist-info/RECORD"
    files[record] = ("".join(f"{name},sha256={sums[name]},{len(files[name])}\n" for name in files) + f"{record},,\n").encode()
    name = f"{stem}-{TAG}.whl"
    with zipfile.ZipFile(os.path.join(folder, name), "w", zipfile.ZIP_DEFLATED) as wheel:
        for path, data in files.items():
            item = zipfile.ZipInfo(path)
            item.compress_type, item.external_attr = zipfile.ZIP_DEFLATED, 0o100644 << 16
            wheel.writestr(item, data)
    return name


if __name__ == "__main__":
    if len(sys.argv) not in (2, 3):
        sys.exit(__doc__)
    print(build_wheel(sys.argv[1], {"library": os.path.abspath(path) for path in sys.argv[2:]}))
