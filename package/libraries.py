"""The library that other programs link: libalphamu.a and libalphamu.so, made of what was proved of the crate alphamu_c, and the files
that are installed with them. Both have the toolchain's heap functions in them, and of all names only those of alphamu.h can be seen."""
import os
import pathlib
import shutil
import subprocess
import tempfile

TOP = pathlib.Path(__file__).resolve().parent.parent
OUT = TOP / "crates" / "alphamu_c" / "out"
PROVED = OUT / "libalphamu_c.a"
HEADER = TOP / "bindings" / "c" / "alphamu.h"
# The version in the name that programs ask the loader for. It is that of the interface, ALPHAMU_VERSION of the header.
SONAME = "libalphamu.so.1"
# The mode of a file that is a link, whose bytes are the name of another file.
LINK = None
PKG_CONFIG = """prefix=${{pcfiledir}}/../..
libdir=${{prefix}}/lib
includedir=${{prefix}}/include

Name: alphamu
Description: {summary}
Version: {version}
Libs: -L${{libdir}} -lalphamu
Cflags: -I${{includedir}}
"""
BINDINGS = ("python/alphamu.py", "python/make_wheel.py", "python/pyproject.toml", "rust/Cargo.toml", "rust/Cargo.lock", "rust/build.rs", "rust/src")


class Lacking(Exception):
    """Why the library can't be made."""


def sources():
    """What the library is built from, with the folders, which change if a file is added, renamed or removed."""
    yield from (TOP / "crates.txt", TOP / "HANDLES")
    for kind in ("src", "specs", "proofs"):
        for folder in TOP.glob(f"crates/*/{kind}"):
            yield folder
            yield from folder.rglob("*")


def look_for_proved():
    """Raises why there is no current static library of the crate."""
    if not PROVED.exists():
        raise Lacking("there is no proved library: run ./build library")
    if max(it.stat().st_mtime for it in sources() if it.exists()) > PROVED.stat().st_mtime:
        raise Lacking("the proved library is older than its sources: run ./build library")


def tool(*names):
    """The first of these commands that is on the path."""
    found = next(filter(None, map(shutil.which, names)), None)
    if found is None:
        raise Lacking(f"{names[0]} isn't on the path, and the library is made with it")
    return found


def heap():
    """The archive with the toolchain's functions over malloc, realloc and free."""
    path = pathlib.Path(os.path.realpath(tool("rt"))).parent.parent / "c" / "liblibc_c.a"
    if not path.exists():
        raise Lacking(f"the toolchain has no {path}")
    return path


def make(folder, proved=PROVED):
    """Writes libalphamu.a and libalphamu.so into a folder."""
    compiler, archiver, copier = tool("cc", "gcc", "clang"), tool("ar"), tool("objcopy")
    with tempfile.TemporaryDirectory() as room:
        room = pathlib.Path(room)
        whole, archive, shared = (room / it for it in ("alphamu.o", "libalphamu.a", "libalphamu.so"))
        for words in (
                [archiver, "x", heap()],
                [compiler, "-r", "-nostdlib", "-o", whole, "-Wl,--whole-archive", proved, "-Wl,--no-whole-archive", room / "heap.pic.o"],
                # Nothing but the calls may clash with a name of the program that links them.
                [copier, "--strip-debug", "--wildcard", "--keep-global-symbol=alphamu_*", whole],
                [archiver, "rcsD", archive, whole],
                [compiler, "-shared", "-o", shared, f"-Wl,-soname,{SONAME}", "-Wl,-z,defs", "-Wl,-z,now,-s", whole]):
            subprocess.run(words, cwd=room, check=True)
        folder.mkdir(parents=True, exist_ok=True)
        for it in (archive, shared):
            part = folder / (it.name + ".part")
            shutil.copyfile(it, part)
            part.replace(folder / it.name)


def binding_names():
    """The names of the files for Python and Rust, below bindings/."""
    for name in BINDINGS:
        path = HEADER.parent.parent / name
        for it in sorted(path.iterdir()) if path.is_dir() else [path]:
            yield it.relative_to(HEADER.parent.parent).as_posix()


def contents(summary, version):
    """What is installed: for each name under the prefix its bytes and its mode."""
    look_for_proved()
    with tempfile.TemporaryDirectory() as room:
        make(pathlib.Path(room))
        archive, shared = (pathlib.Path(room, it).read_bytes() for it in ("libalphamu.a", "libalphamu.so"))
    found = {
        "include/alphamu.h": (HEADER.read_bytes(), 0o644),
        "lib/libalphamu.a": (archive, 0o644),
        f"lib/{SONAME}": (shared, 0o644),
        "lib/libalphamu.so": (SONAME.encode(), LINK),
        "lib/pkgconfig/alphamu.pc": (PKG_CONFIG.format(summary=summary, version=version).encode(), 0o644),
    }
    return found | {f"share/alphamu/{it}": ((HEADER.parent.parent / it).read_bytes(), 0o644) for it in binding_names()}
