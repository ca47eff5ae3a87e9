"""Looks at a wheel as a package index does: the metadata, the names and tags of the file, the sums of its contents, and what its library
needs. pip looks at none of these sums.

usage: python3 -m tests.libv7.wheel WHEEL
"""
import base64
import csv
import email
import hashlib
import io
import os
import re
import sys
import tempfile
import zipfile

import backend
from tests.lib.compare import notices, same

# the platforms that an index takes for Linux
PLATFORM = re.compile(r"manylinux(1|2010|2014|_\d+_\d+)_x86_64$")


def summed(data):
    digest = base64.urlsafe_b64encode(hashlib.sha256(data).digest()).rstrip(b"=").decode()
    return f"sha256={digest}", str(len(data))


def check(path, files):
    """Compares what the wheel of this path says of its files with them."""
    name, version, python, abi, platforms = os.path.basename(path)[:-len(".whl")].split("-")
    info = f"{name}-{version}.dist-info"
    fields, wheel = (email.message_from_bytes(files[f"{info}/{part}"]) for part in ("METADATA", "WHEEL"))
    same("name and version", (fields["Name"], fields["Version"]), (name, version))
    same("fields", [field for field in ("Summary", "Requires-Python", "Metadata-Version") if not fields[field]], [])
    same("the description", (fields["Description-Content-Type"], bool(fields.get_payload().strip())), ("text/markdown", True))
    same("tags", sorted(wheel.get_all("Tag")), sorted(f"{python}-{abi}-{platform}" for platform in platforms.split(".")))
    same("platforms that an index refuses", [it for it in platforms.split(".") if not PLATFORM.match(it)], [])
    same("Root-Is-Purelib", wheel["Root-Is-Purelib"], "false")
    rows = {path: (digest, size) for path, digest, size in csv.reader(io.StringIO(files[f"{info}/RECORD"].decode()))}
    same("RECORD", rows, {**{path: summed(data) for path, data in files.items()}, f"{info}/RECORD": ("", "")})
    same("the mark that there are types", "v7/py.typed" in files, True)


def main(path):
    with zipfile.ZipFile(path) as packed:
        files = {item.filename: packed.read(item) for item in packed.infolist()}
        same("files that not everybody can read", [it.filename for it in packed.infolist() if it.external_attr >> 16 != 0o100644], [])
    notices(check, path, {**files, "v7/py.typed": b"planted"})
    check(path, files)
    with tempfile.NamedTemporaryFile() as library:
        library.write(files["v7/libv7.so.0"])
        library.flush()
        backend.check_needs(library.name)
    print(f"{os.path.basename(path)}: as an index wants it")


if __name__ == "__main__":
    main(*sys.argv[1:])
