#!/usr/bin/env python3
"""library.py [--seed N] [--calls N] [PART ..]

Makes libalphamu.a and libalphamu.so of what `rt ci` or ./build library proved, and tries them. Without a PART all are tried:

    symbols   of all names only the calls can be seen; there are no variables; nothing is needed but memcpy, memmove, memset, malloc,
              realloc and free
    header    the header is clean in C from C99 on and in C++ from C++11 on, for each compiler that is there, and a program links in both
    crate     cargo fmt and clippy find nothing in the crate for Rust, and the oldest compiler that it names builds it
    module    all that the module for Python shows has type hints and says what it is, and mypy finds nothing
    cases     each case of cases/ that the calls by text can be asked has the same bytes, line and status, also with just enough room and
              with a byte less
    bits      the same cases by bits: card, weight, front and worths against the case, and against `card` and `fusion` of the program if
              it is there
    examples  the programs of examples/library in C, Python and Rust print what examples/suits/README.md shows
    page      the Python of docs/PROGRAMS.md gives what the page says of its ending
    threads   8 threads with a stack of 512 KiB ask 2,000 questions each, in less than 60 seconds of the processor; and one asks deep
              questions
    memory    each allocation of a call fails in turn: the call runs out of memory or is right, and nothing is lost, also by valgrind
    hostile   a million calls by bits of sound, spoiled and senseless questions (checks/library/hostile.c), in less than 60 seconds
              of the processor

A language or a tool that isn't there is left out, with a line. The exit status is 0 only if nothing is wrong."""
import argparse
import ctypes
import dataclasses
import os
import pathlib
import re
import resource
import shutil
import subprocess
import sys
import tempfile
import time

sys.dont_write_bytecode = True
TOP = pathlib.Path(__file__).resolve().parent.parent
sys.path[:0] = [str(TOP / "package"), str(TOP / "bindings" / "python")]
import cases
import libraries
import library_bits
import library_cases

SOURCES = TOP / "checks" / "library"
EXAMPLES = TOP / "examples" / "library"
CALLS = {"alphamu_version", *("alphamu_" + it for it in library_bits.CALLS)}
FLAGS = ("-std=c11", "-D_GNU_SOURCE", "-O2", "-g", "-Wall", "-Wextra", "-Werror")
NEEDED = {"memcpy", "memmove", "memset", "malloc", "realloc", "free"}
# What the header is compiled as, for each compiler, and as little of a program as can link.
STANDARDS = {("c", "gcc", "clang"): ("c99", "c11", "c17"), ("c++", "g++", "clang++"): ("c++11", "c++17")}
PEDANTIC = ("-Wall", "-Wextra", "-pedantic", "-Werror")
LEAST_PROGRAM = """#include <alphamu.h>
#include <alphamu.h>
int main(void) { return alphamu_version() == ALPHAMU_VERSION && alphamu_card_from_dds(3, 14) == 51 ? 0 : 1; }
"""
# The toolchain's heap gives this address for an allocation that failed. Nothing is kept there.
NO_VARIABLE = {"nothing"}
# What the bytes of a buffer are before a call, and how many behind it are looked at.
UNTOUCHED, BEHIND = 0xa5, 16
NO_ROOM = 8
# The least number of cases by text, so that none is lost unnoticed.
LEAST = 260
# As many calls and methods as the module for Python has at least.
LEAST_CALLS = 16
# What the threads and the failing allocations leave out: cases that take long, and more questions than are needed.
LONGEST, MOST_IN_TURN = 100_000, 24
THREADS, EACH, SECONDS = 8, 2000, 60
# Examples that are asked with all moves. The first is asked once more as a whole deal, after the opening lead.
DEEP = ("discard", "squeeze-or-finesse", "two-way-finesse")
FIRST_ROW = re.compile(rb"^SJ SA(?s:.*)^\*$", re.M)


class Trial:
    """What is tried, in a folder that has the libraries, with what was found."""

    def __init__(self, room, given):
        self.room, self.given, self.faults, self.left_out, self.done = room, given, [], [], []
        self.archive, self.shared = room / "libalphamu.a", room / "libalphamu.so"
        self.asked = library_cases.all_asked()

    def expect(self, what, is_right):
        if not is_right:
            self.faults.append(what)

    def has(self, *commands):
        """Whether commands are on the path. If one isn't, says so."""
        lacking = [it for it in commands if shutil.which(it) is None]
        if lacking:
            self.left_out.append(f"{' and '.join(lacking)}: not on the path")
        return not lacking

    def run(self, words, **given):
        return subprocess.run(words, stdout=subprocess.PIPE, stderr=subprocess.STDOUT, text=True, **given)

    def compiled(self, name, *words):
        """A program of checks/library, or none if it can't be compiled."""
        program = self.room / name
        found = self.run(["cc", *FLAGS, f"-I{libraries.HEADER.parent}", *words, self.archive, "-lpthread", "-o", program])
        self.expect(f"{name} isn't compiled: {found.stdout}", found.returncode == 0)
        return program if found.returncode == 0 else None

    def by_text(self, it):
        """What comes of a case through the library, as the case has it: text or line, and status."""
        call = {"list": self.alphamu.list_layouts}.get(it.call) or getattr(self.alphamu, it.call)
        try:
            return call(*it.files, *((it.moves, it.nodes) if it.call in ("report", "card") else ())).encode(), 0
        except self.alphamu.AlphamuError as refusal:
            return refusal.line.encode() + b"\n", refusal.status

    @property
    def alphamu(self):
        """The module, over the library that was made here."""
        os.environ["ALPHAMU_LIBRARY"] = str(self.shared)
        import alphamu
        return alphamu

    def lasting(self, name, words):
        """Runs a program that has to be right, and in time. The time is the processor's, which other work changes little."""
        before = resource.getrusage(resource.RUSAGE_CHILDREN)
        found = self.run(words)
        after = resource.getrusage(resource.RUSAGE_CHILDREN)
        took = after.ru_utime + after.ru_stime - before.ru_utime - before.ru_stime
        self.expect(f"{name}: {found.stdout}", found.returncode == 0)
        self.expect(f"{name}: {took:.0f} seconds", took < SECONDS)
        self.done.append(f"{found.stdout.strip().splitlines()[-1] if found.stdout.strip() else 'no line'}, {took:.1f} s")


def symbols(trial):
    if not trial.has("nm"):
        return
    rows = [it.split() for it in trial.run(["nm", trial.archive]).stdout.splitlines() if re.match(r"[0-9a-f ]{16} \w ", it)]
    kinds = {kind: {name for *_, found, name in rows if found == kind} for kind in {row[-2] for row in rows}}
    trial.expect(f"the calls: {kinds.get('T')}", kinds.get("T") == CALLS)
    trial.expect(f"needed: {kinds.get('U')}", kinds.get("U", set()) <= NEEDED)
    data = set().union(*(names for kind, names in kinds.items() if kind in "bBdDgGsSC")) - NO_VARIABLE
    trial.expect(f"variables: {data}", not data)
    seen = {it.split()[-1] for it in trial.run(["nm", "-D", "--defined-only", trial.shared]).stdout.splitlines()}
    trial.expect(f"what the shared library shows: {seen}", seen == CALLS)
    trial.done.append(f"{len(CALLS)} calls, {len(kinds.get('U', ()))} functions needed, no variable")


def header(trial):
    source, program = trial.room / "least", trial.room / "least.out"
    source.write_text(LEAST_PROGRAM)
    for (language, *compilers), standards in STANDARDS.items():
        for compiler in filter(trial.has, compilers):
            before = len(trial.faults)
            for standard in standards:
                words = [compiler, f"-std={standard}", *PEDANTIC, f"-I{libraries.HEADER.parent}", "-x", language, source]
                found = trial.run([*words, "-x", "none", trial.archive, "-o", program])
                trial.expect(f"the header, {compiler} -std={standard}: {found.stdout}", (found.returncode, found.stdout) == (0, ""))
                if found.returncode == 0:
                    trial.expect(f"{compiler} -std={standard}: the version differs", trial.run([program]).returncode == 0)
            if len(trial.faults) == before:
                trial.done.append(f"the header: {compiler}, {', '.join(standards)}")


def crate(trial):
    if not trial.has("cargo"):
        return
    folder = trial.room / "crate"
    shutil.copytree(TOP / "bindings/rust", folder, ignore=shutil.ignore_patterns("target"))
    env = {**os.environ, "ALPHAMU_LIB_DIR": str(trial.room)}
    for tool, words in (("fmt", ("--check",)), ("clippy", ("--offline", "--locked", "--quiet", "--", "-D", "warnings"))):
        if trial.run(["cargo", tool, "--version"], cwd=folder).returncode != 0:
            trial.left_out.append(f"cargo {tool}: not installed")
            continue
        found = trial.run(["cargo", tool, *words], cwd=folder, env=env)
        trial.expect(f"cargo {tool}: {found.stdout}", found.returncode == 0)
        trial.done.append(f"cargo {tool}")
    by_oldest(trial, folder)


def by_oldest(trial, folder):
    """Builds the crate and its build script by the compiler that Cargo.toml names, of rustup or of the system."""
    version = re.search(r'^rust-version = "(.*)"$', (folder / "Cargo.toml").read_text(), re.M)[1]
    named = f"rustc {re.escape(version)}[. ]"
    for compiler in (["rustup", "run", version, "rustc"], ["/usr/bin/rustc"], ["rustc"]):
        if shutil.which(compiler[0]) and re.match(named, trial.run([*compiler, "--version"]).stdout):
            break
    else:
        trial.left_out.append(f"the crate by its oldest compiler: no rustc {version}")
        return
    for kind, source in (("rlib", "src/lib.rs"), ("bin", "build.rs")):
        words = ["--edition", "2021", "-D", "warnings", "--crate-type", kind, "--out-dir", folder / "oldest", folder / source]
        found = trial.run([*compiler, *words])
        trial.expect(f"rustc {version}, {source}: {found.stdout}", found.returncode == 0)
    trial.done.append(f"the crate by rustc {version}")


def module(trial):
    shown = [getattr(trial.alphamu, it) for it in trial.alphamu.__all__]
    methods = [it for kind in shown if isinstance(kind, type) for name, it in vars(kind).items() if name[0] != "_"]
    told = [it for it in (*shown, *methods) if callable(it)]
    for it in told:
        trial.expect(f"the module for Python: {it.__qualname__} doesn't say what it is", it.__doc__)
    calls = [it for it in told if not isinstance(it, type)]
    for it in calls:
        hinted = set(it.__annotations__) | {"self"}
        taken = {*it.__code__.co_varnames[:it.__code__.co_argcount], "return"}
        trial.expect(f"the module for Python: {it.__qualname__} has no hint for {taken - hinted}", taken <= hinted)
    trial.expect(f"the module for Python shows only {len(calls)} calls", len(calls) >= LEAST_CALLS)
    trial.done.append(f"{len(told)} names of the module for Python")
    if trial.has("mypy"):
        sources = [TOP / "bindings/python" / it for it in ("alphamu.py", "make_wheel.py")]
        found = trial.run(["mypy", "--strict", f"--cache-dir={trial.room / 'mypy'}", *sources])
        trial.expect(f"mypy: {found.stdout}", found.returncode == 0)
        trial.done.append("mypy --strict")


def in_room(trial, it, room):
    """What comes of a case in a buffer of this size: status, number written, and the buffer with some bytes behind it."""
    call = getattr(trial.alphamu._library, "alphamu_" + it.call)
    given = [part for file in it.files for part in (file, len(file))] + ([it.moves, it.nodes] if it.call in ("report", "card") else [])
    out, written = ctypes.create_string_buffer(bytes([UNTOUCHED]) * (room + BEHIND), room + BEHIND), ctypes.c_size_t()
    return call(*given, out, room, written), written.value, out.raw


def by_cases(trial):
    for it in trial.asked:
        found, length = trial.by_text(it), len(it.text)
        trial.expect(f"{it.case}: {found!r}, and not {(it.text, it.status)!r}", found == (it.text, it.status))
        untouched = bytes([UNTOUCHED]) * (length + BEHIND)
        trial.expect(f"{it.case}, just enough room", in_room(trial, it, length) == (it.status, length, it.text + untouched[length:]))
        right = (it.status, length - 1, it.text[:-1] + untouched[length:]) if it.status else (NO_ROOM, length, untouched[1:])
        trial.expect(f"{it.case}, a byte less", in_room(trial, it, length - 1) == right)
    trial.expect(f"there are only {len(trial.asked)} cases of {LEAST}", len(trial.asked) >= LEAST)
    trial.done.append(f"{len(trial.asked)} cases by text")


def searched(trial):
    """The cases that can be asked by bits."""
    return [it for it in trial.asked if it.call in ("report", "card", "fusion") and it.status == 0]


def by_bits(trial):
    has_program = not cases.lacks_program()
    if not has_program:
        trial.left_out.append(f"the program's answers: {cases.lacks_program()}")
    chosen = searched(trial)
    for it in chosen:
        try:
            trial.faults += library_bits.Compared(trial.alphamu, it, has_program).compare()
        except trial.alphamu.AlphamuError as refusal:
            trial.faults.append(f"{it.case}, by bits: {refusal}")
    trial.done.append(f"{len(chosen)} cases by bits")


def shown():
    """What examples/suits/README.md shows of its first suit: for each card what a simulation believes, and the true card and weight."""
    text = (TOP / "examples/suits/README.md").read_text(encoding="utf-8")
    found = re.search(r"^card (\w\w) weight (\d+) of (\d+)$", text, re.M)
    return re.findall(r"^card (\w\w) vector \d+ weight (\d+)$", text, re.M), *found.groups()


def strategy_shown(trial, suit):
    """How the strategy for the first vector of a report begins, as the examples print it."""
    plans = library_bits.plans_of(trial.alphamu.report(*(suit.with_suffix(it).read_bytes() for it in (".pbn", ".lay")), 6))
    [(card, replies)] = plans[max(plans, key=lambda it: (it.count("1"), it))]
    return "".join([f"a strategy: play {card}\n", *(f"on {theirs} play {plan[0][0]}\n" for theirs, plan in replies)])


def judge_example(trial, name, words, **given):
    """Runs an example by bits and by text, and compares it with the page of the suits and with a report."""
    believed, card, weight, total = shown()
    suit = trial.room / "suit"
    trial.run([TOP / "examples/suits/make.py", "K10x", "AQ9xx", suit])
    found = trial.run(words, **given)
    rows = re.findall(r"^(\w\w) wins (\d+) of (\d+); a simulation believes in (\d+)$", found.stdout, re.M)
    is_right = [(it[0], it[3]) for it in rows] == believed and (card, weight, total) in [it[:3] for it in rows]
    is_right = is_right and all(int(it[1]) <= int(weight) for it in rows)
    is_right = is_right and found.stdout.endswith(f"\nplay {card}\n{strategy_shown(trial, suit)}")
    trial.expect(f"the example in {name}, by bits: {found.stdout}", is_right)
    found = trial.run([*words, f"{suit}.pbn", f"{suit}.lay"], **given)
    right = f"alphamu card 2\ncard {card} weight {weight} of {total}\n"
    trial.expect(f"the example in {name}, by text: {found.stdout}", found.stdout == right)
    trial.done.append(f"the example in {name}")


def examples(trial):
    if trial.has("cc"):
        program = trial.compiled("ending", EXAMPLES / "ending.c")
        if program:
            judge_example(trial, "C", [program])
    env = {**os.environ, "PYTHONPATH": str(TOP / "bindings/python"), "ALPHAMU_LIBRARY": str(trial.shared), "PYTHONDONTWRITEBYTECODE": "1"}
    judge_example(trial, "Python", [sys.executable, EXAMPLES / "ending.py"], env=env)
    if trial.has("cargo", "rustc", "cc"):
        user = trial.room / "user"
        (user / "src").mkdir(parents=True)
        shutil.copy(EXAMPLES / "ending.rs", user / "src" / "main.rs")
        shutil.copytree(TOP / "bindings/rust", trial.room / "rust", ignore=shutil.ignore_patterns("target"))
        (user / "Cargo.toml").write_text('[package]\nname = "user"\nedition = "2021"\n\n[dependencies]\nalphamu = { path = "../rust" }\n')
        env = {**os.environ, "ALPHAMU_LIB_DIR": str(trial.room)}
        judge_example(trial, "Rust", ["cargo", "run", "--offline", "--quiet", "--"], cwd=user, env=env)


def page(trial):
    """Runs the blocks of the page in turn. The first asks about files that the page doesn't have; here they are those of the ending."""
    blocks = re.findall(r"^```python\n(.*?)^```$", (TOP / "docs/PROGRAMS.md").read_text(encoding="utf-8"), re.M | re.S)
    names = {"alphamu": trial.alphamu, "time": time, "dataclasses": dataclasses}
    names |= {name: (TOP / "examples" / f"queen.{ending}").read_bytes() for name, ending in (("deal", "pbn"), ("layouts", "lay"))}
    for it in blocks:
        exec(it, names)  # the repository's own page
    question, lefts = names["question"], names["lefts"]
    worths = [(it.card, it.weight, it.double_dummy) for it in question.worths(lefts)]
    by_clock = names["card_by_the_clock"](question, lefts, [1, 1], 60, 4)
    found = names["text"], question.card(lefts), worths, question.front(lefts), names["told"], by_clock
    best = trial.alphamu.Choice(0, 1)
    right = "alphamu card 1\ncard S2 count 1 of 2\n", best, [(0, 1, 2), (1, 1, 2)], ["10", "01"], ["S2", "SJ"], (best, 4)
    trial.expect(f"the Python of docs/PROGRAMS.md: {found}, and not {right}", found == right)
    trial.done.append(f"{len(blocks)} pieces of docs/PROGRAMS.md")


def records(trial, most):
    """Cases by text and by bits as records, at most this many of each, spread over all of them."""
    short = [it for it in trial.asked if len(it.text) + sum(map(len, it.files)) < LONGEST]
    found = [library_bits.record_of(it) for it in short[::-(-len(short) // most)]]
    chosen = [it for it in searched(trial) if it in short]
    for it in chosen[::-(-len(chosen) // most)]:
        found += library_bits.Compared(trial.alphamu, it, False).records()
    return found


def deep(trial):
    """Questions with all moves planned, which need the most stack, with the answers that they have in a thread with more of it. Their
    strategies are left out: some take more memory than there is."""
    found = [tuple((TOP / "examples" / folder / it).read_bytes() for it in ("deal.pbn", "layouts.lay")) for folder in DEEP]
    deal, layouts = found[0]
    whole = FIRST_ROW.sub(b"SJ - - -\n*", deal), layouts
    for files in (*found, whole):
        asked = library_cases.Asked("deep", "card", files, 26, library_cases.NODES, 0, b"")
        text, status = trial.by_text(asked)
        yield library_bits.record_of(dataclasses.replace(asked, text=text, status=status))
        yield from library_bits.Compared(trial.alphamu, asked, False).records(library_bits.CALLS[5:8])


def in_threads(trial):
    if not trial.has("cc"):
        return
    program = trial.compiled("threads", SOURCES / "threads.c", SOURCES / "questions.c")
    if program:
        library_bits.write(trial.room / "mixed", records(trial, len(trial.asked)))
        trial.lasting("threads", [program, trial.room / "mixed", str(THREADS), str(EACH)])
        found = list(deep(trial))
        library_bits.write(trial.room / "deep", found)
        trial.lasting("deep questions", [program, trial.room / "deep", "1", str(len(found))])


def in_little_memory(trial):
    if not trial.has("cc"):
        return
    program = trial.compiled("memory", "-Wl,--wrap=malloc,--wrap=realloc,--wrap=free", SOURCES / "memory.c", SOURCES / "questions.c")
    if program:
        library_bits.write(trial.room / "few", records(trial, MOST_IN_TURN))
        trial.lasting("memory", [program, trial.room / "few"])
    if program and trial.has("valgrind"):
        library_bits.write(trial.room / "fewer", records(trial, 4))
        words = ["valgrind", "--quiet", "--leak-check=full", "--show-leak-kinds=definite,indirect", "--error-exitcode=9", program]
        # A call takes some fifty times as long there, so only each seventh allocation fails.
        trial.lasting("memory in valgrind", [*words, trial.room / "fewer", "7"])


def hostile(trial):
    if trial.has("cc"):
        program = trial.compiled("hostile", "-fsanitize=address,undefined", SOURCES / "hostile.c")
        if program:
            trial.lasting("hostile", [program, str(trial.given.seed), str(trial.given.calls)])


PARTS = {"symbols": symbols, "header": header, "crate": crate, "module": module, "cases": by_cases, "bits": by_bits, "examples": examples,
         "page": page, "threads": in_threads, "memory": in_little_memory, "hostile": hostile}


def main():
    parser = argparse.ArgumentParser(description=__doc__, formatter_class=argparse.RawDescriptionHelpFormatter)
    parser.add_argument("parts", nargs="*", metavar="PART", choices=[*PARTS, []])
    parser.add_argument("--seed", type=int, default=1, help="of the hostile calls (default 1)")
    parser.add_argument("--calls", type=int, default=1_000_000, help="how many hostile calls (default 1000000)")
    given = parser.parse_args()
    with tempfile.TemporaryDirectory() as room:
        try:
            libraries.look_for_proved()
            libraries.make(pathlib.Path(room))
        except (libraries.Lacking, subprocess.CalledProcessError) as fault:
            print(f"library: {fault}")
            return 1
        trial = Trial(pathlib.Path(room), given)
        for part in given.parts or PARTS:
            try:
                PARTS[part](trial)
            except trial.alphamu.AlphamuError as refusal:
                trial.faults.append(f"{part}: {refusal}")
    for lines, kind in ((trial.done, "done: "), (trial.left_out, "left out: "), (trial.faults, "")):
        for it in lines:
            print(f"library: {kind}{it}")
    print(f"library: {len(trial.faults)} faults")
    return 1 if trial.faults else 0


if __name__ == "__main__":
    sys.exit(main())
