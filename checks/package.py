#!/usr/bin/env python3
"""package.py [--debian DIR]

Makes the packages by ./build package and tries them: in a folder into which the .tar.gz is unpacked, and in an empty root into
which dpkg installs the Debian package. In both the front page's first question is answered without the toolchain on the path, the
strategies of docs/USING.md are told in words, the library's example is linked as pkg-config says and gives the same in C and Python,
the checksums of BUILD agree, and the man pages are well formed, have each job, option and status, and none of what is only right on a
page or in the source; nor have the pages. Help, version and the line more about a refusal are there too. A closed pipe is a failed write.
From the .tar.gz the example gives the same in Rust, and with the module that pip installs from the wheel and from the prefix. lintian
finds no error in the Debian package, and nothing that its programs load and Depends doesn't have. After dpkg has removed the package nothing is left.

--debian DIR also tries the package in a Debian of its own, with what it depends on and not forced: both programs answer, a page is
written, the example runs in C and Python, and nothing is left after the removal. If DIR isn't there, debootstrap makes it, which takes
the network and some minutes; it is kept for the next time.

What else needs a command that isn't there, or the right to install, is left out, with a line. There must be current proved programs and a
library, which ./build and ./build library make."""
import argparse
import gzip
import os
import pathlib
import re
import shutil
import subprocess
import sys
import tarfile
import tempfile

sys.dont_write_bytecode = True
import desk_safety
import jobs
import messages
import pages

TOP = pages.TOP
DOCS = "share/doc/alphamu"
PATH = "/usr/bin:/bin"
# What the library's example needs in a Debian beside the package.
IN_DEBIAN = "python3,gcc,libc6-dev,pkgconf"
# Where a package puts what stays, and what a Debian keeps there for itself.
PLACES, OWN = ("etc", "opt", "usr", "var"), ("var/lib/dpkg", "var/log", "var/cache")
# The jobs of the second program, and what no man page may say: marks of Markdown, the source's launchers, and what has no place there.
STUDY_JOBS = ("page", "words", "lines", "cards", "review", "draw")
OUT_OF_PLACE = ("![", "](", "./study", "./alphamu", "./desk", "last three rows", "last four rows", "you can't", "the picture", "tables above", "see below", "see above")
faults, left_out = [], []


def expect(what, is_right):
    if not is_right:
        faults.append(what)


def run(words, **given):
    return subprocess.run(words, stdout=subprocess.PIPE, stderr=subprocess.STDOUT, text=True, **given)


def first_question():
    """The front page's first question with its words, and the answer that docs/USING.md shows for it."""
    text = (TOP / "README.md").read_text(encoding="utf-8")
    command = next(it for _, it, _ in pages.commands(text) if it.startswith("./alphamu"))
    using = (TOP / "docs/USING.md").read_text(encoding="utf-8")
    answer = next(lines for _, it, lines in pages.commands(using) if it == command)
    return command.split()[1:], answer


def try_answer(prefix):
    """The first question, asked in the folder of the pages, with nothing but the system's commands on the path."""
    words, answer = first_question()
    found = run([prefix / "bin/alphamu", *words], cwd=prefix / DOCS, env={"PATH": "/usr/bin:/bin"})
    expect(f"{prefix}: the first question: {found.stdout!r}", found.returncode == 0 and found.stdout.splitlines() == answer)
    reader, writer = os.pipe()
    os.close(reader)
    found = subprocess.run([prefix / "bin/alphamu", *words], cwd=prefix / DOCS, stdout=writer, stderr=subprocess.PIPE)
    os.close(writer)
    expect(f"{prefix}: a closed pipe: {found}", (found.returncode, found.stderr) == (8, b"alphamu: cannot write\n"))


def try_desk(prefix):
    """The desk, which is asked for its page and for an answer."""
    desk = desk_safety.Desk([str(prefix / DOCS / "examples/slam/deal.pbn")], str(prefix / "bin/alphamu_desk"))
    page, told = desk.ask(""), desk.ask("think", {"file": "1", "game": 1, "at": 32})
    expect(f"{prefix}: the desk: {page[0]} {told[1][-300:]}", page[0] == told[0] == 200 and told[1].endswith('{"end": "settled"}\n'))
    expect(f"{prefix}: the desk ends otherwise", desk.end() == [])


def try_words(prefix):
    """Strategies in words, by the second program as docs/USING.md shows it."""
    found = pages.commands((TOP / "docs/USING.md").read_text(encoding="utf-8"))
    words, answer = next((it, lines) for _, it, lines in found if it.startswith("./study --job words"))
    env = {"PATH": f"{prefix}/bin:/usr/bin:/bin"}
    told = run(["sh", "-c", words.replace("./study", "alphamu_study")], cwd=prefix / DOCS, env=env)
    expect(f"{prefix}: the strategies in words: {told.stdout!r}", told.returncode == 0 and told.stdout.splitlines() == answer)


def try_help(prefix):
    """Both programs say what their jobs take, and their version; at a terminal a second line says more about a refusal."""
    version = (TOP / "VERSION").read_text(encoding="utf-8").strip()
    for program, job in (("alphamu", "card"), ("alphamu_study", "cards")):
        found = run([prefix / "bin" / program, "--help", job])
        expect(f"{prefix}: help: {found.stdout!r}", found.returncode == 0 and f"    {program} --job {job} --deal examples/" in found.stdout)
        found = run([prefix / "bin" / program, "--version"])
        expect(f"{prefix}: version: {found.stdout!r}", (found.returncode, found.stdout) == (0, f"{program} {version}\n"))
        status, out, told = messages.at_terminal([prefix / "bin" / program, "--job", job + "x"])
        expect(f"{prefix}: wrong words: {told!r}", (status, out) == (2, b"") and f"{program}: \"{job}x\" is no job" in told)


def example_env(prefix):
    """What the library's example is run with where the system doesn't know the library."""
    return {"PATH": PATH, "PKG_CONFIG_PATH": str(prefix / "lib/pkgconfig"), "LD_LIBRARY_PATH": str(prefix / "lib"),
            "PYTHONPATH": str(prefix / "share/alphamu/python"), "PYTHONDONTWRITEBYTECODE": "1"}


def try_library(prefix):
    """The example of the library in C, linked against what is installed, and in Python: both print the same."""
    example, env = prefix / DOCS / "examples/library/ending", example_env(prefix)
    if shutil.which("cc") is None or shutil.which("pkg-config") is None:
        left_out.append("the library isn't linked: that takes cc and pkg-config")
        return
    with tempfile.TemporaryDirectory() as room:
        found = run(["sh", "-c", 'cc "$0.c" $(pkg-config --cflags --libs alphamu) -o "$1"', example, f"{room}/ending"], env=env)
        expect(f"{prefix}: linking: {found.stdout}", (found.returncode, found.stdout) == (0, ""))
        in_c, in_python = (run([it], env=env) for it in (f"{room}/ending", f"{example}.py"))
    is_right = in_c.returncode == 0 and in_c.stdout == in_python.stdout and "\nplay S3\na strategy: " in in_c.stdout
    expect(f"{prefix}: the library: {in_c.stdout!r} {in_python.stdout!r}", is_right)


def expect_example(what, prefix, words, **given):
    """The example, run in another way, prints what it does with the module under the prefix."""
    right = run([prefix / DOCS / "examples/library/ending.py"], env=example_env(prefix))
    found = run(words, **given)
    expect(f"{what}: {found.stdout!r}", (found.returncode, found.stdout) == (0, right.stdout) and right.stdout != "")


def try_rust(prefix):
    """The example in Rust, with the crate under the prefix, which finds the library."""
    if shutil.which("cargo") is None or shutil.which("cc") is None:
        left_out.append("the example isn't built in Rust: that takes cargo and cc")
        return
    with tempfile.TemporaryDirectory() as room:
        user = pathlib.Path(room)
        (user / "src").mkdir()
        shutil.copy(prefix / DOCS / "examples/library/ending.rs", user / "src/main.rs")
        needed = f'[dependencies]\nalphamu = {{ path = "{prefix}/share/alphamu/rust" }}\n'
        (user / "Cargo.toml").write_text(f'[package]\nname = "user"\nedition = "2021"\n\n{needed}')
        expect_example(f"{prefix}: in Rust", prefix, ["cargo", "run", "--offline", "--quiet"], cwd=user)


def try_pip(prefix, wheel):
    """The module as pip installs it without the network, from the wheel and from the prefix. It brings the library with it."""
    pip = [sys.executable, "-m", "pip"]
    if run([*pip, "--version"]).returncode != 0:
        left_out.append("the module for Python isn't installed: no pip")
        return
    words = ("install", "--quiet", "--no-index", "--no-deps", "--disable-pip-version-check", "--no-compile", "--target")
    for source in (wheel, prefix / "share/alphamu/python"):
        with tempfile.TemporaryDirectory() as room:
            env = {"PATH": PATH, "HOME": room, "PYTHONDONTWRITEBYTECODE": "1"}
            found = run([*pip, *words, f"{room}/modules", source], env=env)
            expect(f"pip install {source}: {found.stdout}", found.returncode == 0)
            expect(f"{source}: type checkers don't see its hints", pathlib.Path(room, "modules/alphamu/py.typed").exists())
            env["PYTHONPATH"] = f"{room}/modules"
            expect_example(f"{source}, by pip", prefix, [sys.executable, prefix / DOCS / "examples/library/ending.py"], env=env)


def try_sums(prefix):
    found = run(["sha256sum", "--check", "--quiet", "--strict", f"{DOCS}/BUILD"], cwd=prefix)
    expect(f"{prefix}: checksums: {found.stdout}", found.returncode == 0)
    listed = re.findall(r"^[0-9a-f]{64}  (.*)$", (prefix / DOCS / "BUILD").read_text(), re.M)
    there = {str(it.relative_to(prefix)) for it in prefix.rglob("*") if it.is_file() and not it.is_symlink()}
    expect(f"{prefix}: BUILD lists other files than there are", set(listed) | {f"{DOCS}/BUILD"} == there)


def try_links(prefix):
    """Each link of a page leads to a file of the package."""
    for page in (prefix / DOCS).rglob("*.md"):
        for target in re.findall(r"\]\(([^)#\s]+)", page.read_text(encoding="utf-8")):
            expect(f"{page}: {target} isn't there", "://" in target or (page.parent / target).exists())


def try_man_pages(prefix):
    wanted = {"alphamu": (*jobs.JOBS, *(f"--{it}" for it in jobs.OPTIONS)),
              "alphamu_study": (*(f"alphamu_study --job {it}" for it in STUDY_JOBS), "--report", "--form", "--from", "--games",
                                "--draw", "--seed", "--north", "--east", "--south", "--west"),
              "alphamu_desk": ("--board BOARD", "--at CARD", "--no-browser", "--study PROGRAM")}
    for page, names in wanted.items():
        text = gzip.decompress((prefix / f"share/man/man1/{page}.1.gz").read_bytes()).decode().replace("\\-", "-")
        bold = set(re.findall(r"\\fB(.*?)\\fR", text))
        for name in names:
            expect(f"the man page of {page} lacks {name}", name in bold)
        for wrong in OUT_OF_PLACE:
            expect(f"the man page of {page} says {wrong}", wrong not in text)
    text = gzip.decompress((prefix / "share/man/man1/alphamu.1.gz").read_bytes()).decode()
    statuses = re.findall(r"^\| (\d+) \|", (TOP / "docs/REFUSALS.md").read_text(encoding="utf-8"), re.M)
    for status in statuses:
        expect(f"the man page lacks status {status}", f"\n.TP\n{status}\n" in text)
    if shutil.which("groff") is None:
        left_out.append("the man pages aren't set: no groff")
        return
    for page in wanted:
        text = gzip.decompress((prefix / f"share/man/man1/{page}.1.gz").read_bytes()).decode()
        found = run(["groff", "-k", "-man", "-Tutf8", "-ww", "-z"], input=text)
        expect(f"the man page of {page}: {found.stdout}", found.returncode == 0 and found.stdout == "")


def try_pages(prefix):
    """No page of the package calls the launchers of the source."""
    for page in (prefix / DOCS).rglob("*.md"):
        for wrong in ("./alphamu ", "./alphamu`", "./study", "./desk"):
            expect(f"{page} says {wrong}", wrong not in page.read_text(encoding="utf-8"))


def try_copyright(prefix):
    """It says of the licence what README says, and nothing else."""
    [*_, line] = (prefix / DOCS / "copyright").read_text(encoding="utf-8").splitlines()
    expect(f"{prefix}: README doesn't say: {line}", line in (TOP / "README.md").read_text(encoding="utf-8").splitlines())


def try_tar(folder, made, wheel):
    with tarfile.open(made) as tar:
        tar.extractall(folder, filter="data")
    prefix = next(folder.iterdir())
    try_pip(prefix, wheel)
    for it in (try_answer, try_desk, try_words, try_help, try_library, try_rust, try_sums, try_links, try_pages, try_copyright, try_man_pages):
        it(prefix)


def try_lintian(made):
    if shutil.which("lintian") is None:
        left_out.append("the Debian package isn't judged: no lintian")
        return
    found = run(["lintian", *(["--allow-root"] if os.geteuid() == 0 else []), "--fail-on", "error", made])
    errors = [it for it in found.stdout.splitlines() if it.startswith("E: ") or "undeclared-elf-prerequisites" in it]
    expect(f"lintian: {errors or found.stdout}", found.returncode == 0 and not errors)


def try_deb(root, made):
    if shutil.which("dpkg") is None or os.geteuid() != 0:
        left_out.append("the Debian package isn't installed: that takes dpkg, and root")
        return
    (root / "var/lib/dpkg").mkdir(parents=True)
    (root / "var/lib/dpkg/status").touch()
    chrootless = ["dpkg", f"--root={root}", "--force-script-chrootless"]
    found = run([*chrootless, "--force-depends", "--install", made])
    expect(f"dpkg --install: {found.stdout}", found.returncode == 0)
    for it in (try_answer, try_words, try_library, try_sums):
        it(root / "usr")
    found = run(["dpkg", f"--root={root}", "--verify", "alphamu"])
    expect(f"dpkg --verify: {found.stdout}", (found.returncode, found.stdout) == (0, ""))
    found = run([*chrootless, "--purge", "alphamu"])
    expect(f"dpkg --purge: {found.stdout}", found.returncode == 0 and not any(it.is_file() for it in (root / "usr").rglob("*")))


def names_in(root):
    """All that is in a Debian, without what it keeps for itself, and what Python keeps of its own modules."""
    found = (it.relative_to(root).as_posix() for place in PLACES for it in (root / place).rglob("*"))
    return {it for it in found if not it.startswith(OWN) and ("alphamu" in it or "__pycache__" not in it)}


def try_debian(root, made):
    """The Debian package in a Debian that is otherwise empty, from its coming to its going."""
    if os.geteuid() != 0 or not root.exists() and shutil.which("debootstrap") is None:
        faults.append(f"{root}: that takes root, and debootstrap if it isn't there")
        return
    if not root.exists():
        found = run(["debootstrap", "--variant=minbase", f"--include={IN_DEBIAN}", "stable", root])
        if found.returncode != 0:
            faults.append(f"{root}: debootstrap: {found.stdout.splitlines()[-1:]}")
            return

    def inside(command, **given):
        words = ["chroot", root, "sh", "-c", f"cd /usr/{DOCS} && {command}"]
        return subprocess.run(words, stdout=subprocess.PIPE, stderr=subprocess.STDOUT, text=True, env={"PATH": "/usr/sbin:" + PATH}, **given)

    before = names_in(root)
    shutil.copy(made, root / "tmp/alphamu.deb")
    found = run(["chroot", root, "dpkg", "--install", "/tmp/alphamu.deb"])
    expect(f"{root}: dpkg --install: {found.stdout}", found.returncode == 0)
    try_inside(inside)
    found = run(["chroot", root, "dpkg", "--purge", "alphamu"])
    left = names_in(root) - before
    expect(f"{root}: dpkg --purge: {found.stdout} {sorted(left)[:5]}", found.returncode == 0 and not left)


def try_inside(inside):
    """What a user of a Debian does with the package."""
    words, answer = first_question()
    found = inside(f"alphamu {' '.join(words)}")
    expect(f"in Debian: the first question: {found.stdout!r}", found.returncode == 0 and found.stdout.splitlines() == answer)
    using = pages.commands((TOP / "docs/USING.md").read_text(encoding="utf-8"))
    command, answer = next((it, lines) for _, it, lines in using if it.startswith("./study --job words"))
    found = inside("alphamu --help card && alphamu_study --version")
    expect(f"in Debian: help: {found.stdout!r}", found.returncode == 0 and "--moves" in found.stdout)
    found = inside(command.replace("./study", "alphamu_study"))
    expect(f"in Debian: the strategies in words: {found.stdout!r}", found.returncode == 0 and found.stdout.splitlines() == answer)
    found = inside("alphamu_study --job page --deal examples/queen.pbn --layouts examples/queen.lay --moves 2")
    is_page = found.stdout.startswith("<!DOCTYPE html>") and found.stdout.endswith("</html>\n")
    expect(f"in Debian: a page: {found.stdout[:200]!r}", found.returncode == 0 and is_page)
    found = inside("cc examples/library/ending.c $(pkg-config --cflags --libs alphamu) -o /tmp/ending && /tmp/ending")
    expect(f"in Debian: in C: {found.stdout!r}", found.returncode == 0 and "\nplay S3\na strategy: " in found.stdout)
    in_python = inside("PYTHONPATH=/usr/share/alphamu/python python3 examples/library/ending.py")
    expect(f"in Debian: in Python: {in_python.stdout!r}", (in_python.returncode, in_python.stdout) == (0, found.stdout))


def main():
    parser = argparse.ArgumentParser(description=__doc__, formatter_class=argparse.RawDescriptionHelpFormatter)
    parser.add_argument("--debian", type=pathlib.Path, metavar="DIR", help="a Debian that is otherwise empty")
    given = parser.parse_args()
    if subprocess.run([TOP / "checks" / "program_state"]).returncode != 0:
        sys.exit("package: there is no current proved program: run ./build")
    with tempfile.TemporaryDirectory() as folder:
        folder = pathlib.Path(folder)
        for it in ("made", "tar", "root"):
            (folder / it).mkdir()
        found = run([TOP / "package/package.py", "package", "--out", folder / "made"])
        expect(f"package.py: {found.stdout}", found.returncode == 0)
        made = {it.suffix: it for it in (folder / "made").iterdir()}
        try_tar(folder / "tar", made[".gz"], made[".whl"])
        if ".deb" in made:
            try_lintian(made[".deb"])
            try_deb(folder / "root", made[".deb"])
            if given.debian:
                try_debian(given.debian.absolute(), made[".deb"])
            else:
                left_out.append("a Debian of its own: that takes --debian")
        else:
            left_out.append("there is no Debian package: no dpkg-deb")
        found = run([TOP / "package/package.py", "install", "--prefix", "/dev/null/below"])
        expect(f"a prefix that can't be: {found.stdout}", found.returncode == 70)
    for it in left_out:
        print(f"package: left out: {it}")
    for it in faults:
        print(f"package: {it}")
    print(f"package: {len(faults)} faults")
    sys.exit(1 if faults else 0)


if __name__ == "__main__":
    main()
