#!/usr/bin/env python3
"""package.py library [--prefix DIR] | install --prefix DIR | package [--out DIR]

`library` makes libalphamu.a and libalphamu.so next to the proved static library, or puts them under a prefix with header, pkg-config file
and bindings. `install` puts what people use under a prefix, and `package` into a .tar.gz and a Debian package: the proved programs with
their launcher, the man pages, the library, the pages for users, the examples, and BUILD with the version, the kit that proved it, and a
checksum of each other file. `package` also makes a wheel of the module for Python with the library. It proves nothing: ./build calls it
once the proved programs and library are there. If something fails, a line on standard error says what, the status is 70, and what has
been written so far stays, except that no package is left incomplete.
"""
import argparse
import gzip
import hashlib
import io
import os
import pathlib
import re
import shutil
import subprocess
import sys
import tarfile
import tempfile

sys.dont_write_bytecode = True
TOP = pathlib.Path(__file__).resolve().parent.parent
sys.path[:0] = [str(TOP / it) for it in ("package", "checks", "bindings/python")]
import debian
import desk_files
import jobs
import libraries
import make_wheel
import man

PROGRAMS = ("alphamu", "alphamu_study")
DOCS = "share/doc/alphamu"
# What the launchers read in.
LAUNCHED = {"help.txt": "package/help.txt", "more.awk": "package/more.awk", "words.sh": "package/words.sh", "VERSION": "VERSION"}
# What people read, with the folders that come whole.
PAGES = ("README.md", "CHANGELOG.md", "docs/IDEA.md", "docs/USING.md", "docs/REFUSALS.md", "docs/PROGRAMS.md", "docs/FORMS.md", "docs/SCALING.md",
         "docs/PROVED.md", "docs/TESTED.md", "docs/SPEED.md", "docs/pictures", "docs/definitions", "bindings/README.md", "bindings/c/README.md", "examples")
LINK = re.compile(r"(?<!!)\[([^]]*)\]\(([^)#\s]*)(#[^)\s]*)?\)")
SUMMARY = "which card should declarer play, with a proof behind its answers"
# Of the licence README says the same.
COPYRIGHT = f"alphamu: {SUMMARY}\n\nThe owner has chosen no licence yet.\n"


def text_of(name):
    return (TOP / name).read_text(encoding="utf-8")


def version():
    return text_of("VERSION").strip()


def kit():
    """The line of the toolchain that proved the program."""
    return subprocess.run(["rt", "version"], stdout=subprocess.PIPE, text=True, check=True).stdout.strip()


def page_names():
    """The names of the files that people read."""
    for name in PAGES:
        path = TOP / name
        for it in sorted(path.rglob("*")) if path.is_dir() else [path]:
            if it.is_file() and it.suffix != ".pyc":
                yield str(it.relative_to(TOP))


def for_package(name, text, names):
    """A page in which a link that leads out of the package is its text alone, and the commands call the installed programs."""
    def kept(link):
        target = os.path.normpath(os.path.join(os.path.dirname(name), link[2])) if link[2] else name
        is_there = "://" in link[2] or target in names or any(it.startswith(target + "/") for it in names)
        return link[0] if is_there else link[1]
    return man.as_installed(LINK.sub(kept, text))


def contents():
    """What is installed, without BUILD: for each name under the prefix its bytes and its mode."""
    names = set(page_names())
    found = {
        f"{DOCS}/copyright": (COPYRIGHT.encode(), 0o644),
        **{f"share/man/man1/{name}.1.gz": (gzip.compress(text.encode(), mtime=0), 0o644) for name, text in man_pages().items()},
        **libraries.contents(SUMMARY, version()),
    }
    found.update({f"lib/alphamu/{name}": ((TOP / path).read_bytes(), 0o644) for name, path in LAUNCHED.items()})
    for name in PROGRAMS:
        found[f"bin/{name}"] = ((TOP / "package" / "launcher").read_bytes(), 0o755)
        found[f"lib/alphamu/{name}"] = (stripped(TOP / "crates" / name / "out" / name), 0o755)
    found.update(desk_files.contents(TOP))
    for name in sorted(names):
        path = TOP / name
        data, mode = path.read_bytes(), 0o755 if os.access(path, os.X_OK) else 0o644
        if name.endswith(".md"):
            data = for_package(name, data.decode(), names).encode()
        found[f"{DOCS}/{name}"] = (data, mode)
    return found


def recorded(found):
    """The same with BUILD."""
    return {**found, f"{DOCS}/BUILD": (record_of(found).encode(), 0o644)}


def stripped(program):
    """The bytes of a program without its symbols, which only debuggers use."""
    with tempfile.NamedTemporaryFile() as file:
        subprocess.run([libraries.tool("strip"), "-o", file.name, program], check=True)
        return pathlib.Path(file.name).read_bytes()


def man_pages():
    """The man page of each program."""
    using = text_of("docs/USING.md")
    return {"alphamu": man.page(text_of("README.md"), text_of("docs/REFUSALS.md"), using, jobs, version()),
            "alphamu_study": man.study_page(using, jobs, version()),
            "alphamu_desk": desk_files.page(TOP, version())}


def record_of(found):
    """The version, the kit, and the checksum of each file, as `sha256sum --check` reads it."""
    sums = [f"{hashlib.sha256(data).hexdigest()}  {name}\n" for name, data in files_of(found)]
    return f"# alphamu {version()}\n# proved with {kit()}\n" + "".join(sums)


def files_of(found):
    """The files with their bytes, without the links."""
    return [(name, data) for name, (data, mode) in sorted(found.items()) if mode is not libraries.LINK]


def put(found, prefix):
    """Writes the files under a folder. A file that is replaced keeps its old bytes for whoever runs it."""
    for name, (data, mode) in found.items():
        path = prefix / name
        path.parent.mkdir(parents=True, exist_ok=True)
        part = path.with_name(path.name + ".part")
        part.unlink(missing_ok=True)
        if mode is libraries.LINK:
            part.symlink_to(data.decode())
        else:
            part.write_bytes(data)
            part.chmod(mode)
        part.replace(path)


def date():
    """The date of all files in a package, so that the same sources make the same bytes."""
    if it := os.environ.get("SOURCE_DATE_EPOCH"):
        return int(it)
    return int(max((TOP / it).stat().st_mtime for it in ("VERSION", "CHANGELOG.md")))


def write_tar(found, path):
    """A .tar.gz with one folder, named for the version."""
    with open(path, "wb") as file, gzip.GzipFile("", "wb", fileobj=file, mtime=date()) as packed, tarfile.open(fileobj=packed, mode="w") as tar:
        for name, (data, mode) in sorted(found.items()):
            it = tarfile.TarInfo(f"alphamu-{version()}/{name}")
            it.mtime, it.uname, it.gname = date(), "root", "root"
            if mode is libraries.LINK:
                it.type, it.mode, it.linkname = tarfile.SYMTYPE, 0o777, data.decode()
            else:
                it.size, it.mode = len(data), mode
            tar.addfile(it, io.BytesIO(data) if it.size else None)


def write_deb(found, path):
    """A Debian package of the same files under /usr, with a changelog in Debian's form. False if dpkg-deb isn't there."""
    if shutil.which("dpkg-deb") is None:
        return False
    found = recorded({**found, f"{DOCS}/changelog.gz": debian.changelog(version(), date())})
    with tempfile.TemporaryDirectory() as folder:
        root = pathlib.Path(folder) / "root"
        root.mkdir(mode=0o755)
        put(found, root / "usr")
        members = debian.members(found, SUMMARY, version())
        put({f"DEBIAN/{name}": (text.encode(), mode) for name, (text, mode) in members.items()}, root)
        env = {**os.environ, "SOURCE_DATE_EPOCH": str(date())}
        subprocess.run(["dpkg-deb", "--root-owner-group", "--build", root, path], env=env, check=True, stdout=subprocess.DEVNULL)
    return True


def write_packages(folder):
    """The packages and the wheel. The names of those that were written."""
    found = contents()
    folder.mkdir(parents=True, exist_ok=True)
    made = []
    wheel, packed = make_wheel.wheel(version(), found[f"lib/{libraries.SONAME}"][0], date())
    writers = ((f"alphamu-{version()}-linux-x86_64.tar.gz", lambda it, path: write_tar(recorded(it), path)),
               (f"alphamu_{version()}_amd64.deb", write_deb),
               (wheel, lambda _, path: path.write_bytes(packed)))
    for name, write in writers:
        part = folder / (name + ".part")
        try:
            if write(found, part) is not False:
                part.replace(folder / name)
                made.append(folder / name)
        finally:
            part.unlink(missing_ok=True)
    return made


def done(words):
    """Does what the words say, and gives what was written."""
    if words.command == "package":
        return write_packages(words.out)
    if words.prefix is None:
        libraries.look_for_proved()
        libraries.make(libraries.OUT)
        return [libraries.OUT / it for it in ("libalphamu.a", "libalphamu.so")]
    is_whole = words.command == "install"
    put(recorded(contents()) if is_whole else libraries.contents(SUMMARY, version()), words.prefix)
    return [f"installed {'alphamu' if is_whole else 'the library of alphamu'} {version()} under {words.prefix}"]


def main():
    parser = argparse.ArgumentParser(description=__doc__, formatter_class=argparse.RawDescriptionHelpFormatter)
    commands = parser.add_subparsers(dest="command", required=True)
    commands.add_parser("library").add_argument("--prefix", type=pathlib.Path)
    commands.add_parser("install").add_argument("--prefix", required=True, type=pathlib.Path)
    commands.add_parser("package").add_argument("--out", default=TOP / "out", type=pathlib.Path)
    words = parser.parse_args()
    try:
        for line in done(words):
            print(f"build: {line}", file=sys.stderr)
    except (OSError, subprocess.CalledProcessError, libraries.Lacking) as fault:
        print(f"build: {fault}", file=sys.stderr)
        sys.exit(70)


if __name__ == "__main__":
    main()
