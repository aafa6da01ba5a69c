"""What Debian asks of a package beside the files that are installed: control, checksums, changelog, and what happens as it comes and
goes. Depends is read from the programs and the library themselves."""
import gzip
import hashlib
import re
import subprocess
import tempfile
import time

import libraries

# There is no address to write to, which the reserved ending says. Debian's form asks for one.
MAINTAINER = "the authors of alphamu <alphamu@alphamu.invalid>"
# The package of each library that the programs may load.
PACKAGES = {"libc.so.6": "libc6", "libm.so.6": "libc6", "ld-linux-x86-64.so.2": "libc6", "libgcc_s.so.1": "libgcc-s1"}
CONTROL = """Package: alphamu
Version: {version}
Architecture: amd64
Maintainer: {maintainer}
Section: misc
Priority: optional
Installed-Size: {size}
Depends: {depends}
Suggests: c-compiler, cargo, pkgconf, python3 (>= 3.9)
Description: {summary}
 alphamu reads a deal of bridge with the play so far, and the ways in which the
 defenders' cards may lie. It names the card of the line of play that makes the
 contract in the most of them, and can write every such line.
"""
CHANGELOG = """alphamu ({version}) unstable; urgency=medium

  * CHANGELOG.md says what changes for users.

 -- {maintainer}  {date}
"""
# Python may have kept something of the module.
PRERM = """#!/bin/sh
set -e
rm -rf "$DPKG_ROOT/usr/share/alphamu/python/__pycache__"
"""


def needed(data):
    """For each shared library that a program or library loads, the versions of its symbols that it needs."""
    with tempfile.NamedTemporaryFile() as file:
        file.write(data)
        file.flush()
        words = [libraries.tool("readelf"), "--dynamic", "--version-info", "--wide", file.name]
        text = subprocess.run(words, stdout=subprocess.PIPE, text=True, check=True).stdout
    found = {it: set() for it in re.findall(r"\(NEEDED\).*\[(.*)\]", text)}
    for library, rows in re.findall(r"File: (\S+)  Cnt: \d+\n((?:.*  Name: .*\n)*)", text):
        found.setdefault(library, set()).update(re.findall(r"Name: [A-Z]+_([\d.]+)", rows))
    return found


def depends(found):
    """The packages of the libraries that are loaded, each with the least version that has all that is needed."""
    least = {}
    for name, (data, mode) in found.items():
        if mode is libraries.LINK or data[:4] != b"\x7fELF":
            continue
        for library, versions in needed(data).items():
            if library not in PACKAGES:
                raise libraries.Lacking(f"{name} loads {library}, and package/debian.py doesn't know its package")
            least.setdefault(PACKAGES[library], []).extend([int(part) for part in it.split(".")] for it in versions)
    shown = {package: ".".join(map(str, max(versions, default=[0]))) for package, versions in least.items()}
    return ", ".join(f"{package} (>= {version})" for package, version in sorted(shown.items()))


def changelog(version, date):
    """The changelog in Debian's form, as it is installed."""
    text = CHANGELOG.format(version=version, maintainer=MAINTAINER, date=time.strftime("%a, %d %b %Y %H:%M:%S +0000", time.gmtime(date)))
    return gzip.compress(text.encode(), mtime=0), 0o644


def members(found, summary, version):
    """The files of the package that aren't installed: for each name its text and its mode."""
    size = sum(len(data) for data, _ in found.values()) // 1024 + 1
    control = CONTROL.format(version=version, maintainer=MAINTAINER, size=size, depends=depends(found), summary=summary)
    sums = "".join(f"{hashlib.md5(data).hexdigest()}  usr/{name}\n" for name, (data, mode) in sorted(found.items()) if mode is not libraries.LINK)
    name, number = libraries.SONAME.split(".so.")
    return {"control": (control, 0o644), "md5sums": (sums, 0o644), "shlibs": (f"{name} {number} alphamu (>= {version})\n", 0o644),
            "triggers": ("activate-noawait ldconfig\n", 0o644), "prerm": (PRERM, 0o755)}
