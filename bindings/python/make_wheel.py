"""Makes the wheel of the module alphamu, with libalphamu.so in it. `./build package` calls it, and so does `pip install` of this folder
(pyproject.toml). It needs nothing but Python. In the wheel the module is a package, so that type checkers see its hints.
"""
from __future__ import annotations

import base64
import hashlib
import io
import os
import re
import time
import zipfile
from pathlib import Path

HERE = Path(__file__).resolve().parent
# What a wheel's name says of it: for any Python 3, on Linux on x86-64.
TAG = "py3-none-linux_x86_64"
METADATA = """Metadata-Version: 2.1
Name: alphamu
Version: {version}
Summary: Which card should declarer play at bridge? Calls of the proved library libalphamu.
Requires-Python: >=3.9
Classifier: Operating System :: POSIX :: Linux
Classifier: Typing :: Typed
"""
WHEEL = f"Wheel-Version: 1.0\nGenerator: alphamu\nRoot-Is-Purelib: false\nTag: {TAG}\n"
# Where the library is, and what says the version: installed with this folder, or in the repository.
PLACES = (("../../../lib/libalphamu.so.1", "../../../lib/pkgconfig/alphamu.pc"),
          ("../../crates/alphamu_c/out/libalphamu.so", "../../VERSION"))


class UnsupportedOperation(Exception):
    """A step of packaging that isn't there."""


def contents(version: str, library: bytes) -> dict[str, bytes]:
    """What a wheel holds but the list of it: for each name its bytes."""
    return {
        "alphamu/__init__.py": (HERE / "alphamu.py").read_bytes(),
        "alphamu/libalphamu.so.1": library,
        "alphamu/py.typed": b"",
        f"alphamu-{version}.dist-info/METADATA": METADATA.format(version=version).encode(),
        f"alphamu-{version}.dist-info/WHEEL": WHEEL.encode(),
    }


def record(found: dict[str, bytes], name: str) -> bytes:
    """The list of what a wheel holds, each file with its checksum and length, and the list itself with neither."""
    def row(it: str, data: bytes) -> str:
        checksum = base64.urlsafe_b64encode(hashlib.sha256(data).digest()).rstrip(b"=").decode()
        return f"{it},sha256={checksum},{len(data)}\n"
    return ("".join(row(*it) for it in found.items()) + f"{name},,\n").encode()


def wheel(version: str, library: bytes, date: float) -> tuple[str, bytes]:
    """The name and the bytes of the wheel, whose files all have this date, in seconds since 1970 but not before 1980. The same
    version, library and date make the same bytes."""
    found = contents(version, library)
    name = f"alphamu-{version}.dist-info/RECORD"
    found[name] = record(found, name)
    out, moment = io.BytesIO(), max(time.gmtime(date)[:6], (1980, 1, 1, 0, 0, 0))
    with zipfile.ZipFile(out, "w") as packed:
        for it, data in found.items():
            entry = zipfile.ZipInfo(it, moment)
            entry.external_attr = 0o100644 << 16
            packed.writestr(entry, data, zipfile.ZIP_DEFLATED)
    return f"alphamu-{version}-{TAG}.whl", out.getvalue()


def build_wheel(wheel_directory: str, config_settings: object = None, metadata_directory: object = None) -> str:
    """Writes the wheel of the library that is near this folder, as pip asks for it, and gives its name."""
    for library, version in (tuple(HERE / it for it in places) for places in PLACES):
        if library.exists() and version.exists():
            [said] = re.findall(r"^(?:Version: )?(\d[\w.]*)$", version.read_text(encoding="utf-8"), re.M)
            date = os.environ.get("SOURCE_DATE_EPOCH") or library.stat().st_mtime
            name, data = wheel(said, library.read_bytes(), float(date))
            Path(wheel_directory, name).write_bytes(data)
            return name
    raise FileNotFoundError(f"no libalphamu.so is installed with {HERE}: run ./build library, or install the wheel of a package")


def build_sdist(sdist_directory: str, config_settings: object = None) -> str:
    """There is no archive of the source for pip, since what proves the library isn't Python's."""
    raise UnsupportedOperation("only wheels are made")
