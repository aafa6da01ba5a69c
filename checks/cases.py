#!/usr/bin/env python3
"""cases.py [--jobs N] [--seconds N] [--only PATTERN] [PROGRAM]

Runs a program on each case in cases/, and alphamu_study on each in cases/study/, and compares standard output, standard
error and exit status with what the case expects. If you name no program it is the proved one, which ./build makes, or, if
that isn't there or is older than its sources, the one that `./build test` or a first question compiled unproved. Prints what
differs, and the faults of the cases themselves. The exit status is 0 only if there is nothing to print. cases/README.md says
what a case is.
"""
import argparse
import fnmatch
import os
import shutil
import subprocess
import sys
import tempfile
from concurrent.futures import ThreadPoolExecutor

sys.dont_write_bytecode = True
import jobs
import unproved

TOP = os.path.dirname(os.path.dirname(os.path.abspath(__file__)))
CASES = os.path.join(TOP, "cases")
# The folder of the cases of alphamu_study, which are run by STUDY.
OF_STUDY = "study"
# The files of a case that aren't input.
OWN = ("about", "args", "fill", "stdout", "stderr", "status", "stdout_to")
# The only case without words. In any other a missing file of words is a fault.
WITHOUT_WORDS = "no-words"
# The least number of cases, and of those of alphamu_study, so that none is lost unnoticed. Raise them when you add cases.
LEAST, LEAST_OF_STUDY = 480, 174


def bytes_of(case, name):
    """The bytes of a file of the case; none if it has no such file."""
    path = os.path.join(CASES, case, name)
    if not os.path.exists(path):
        return b""
    with open(path, "rb") as file:
        return file.read()


def folders_in(*parts):
    return sorted(it for it in os.listdir(os.path.join(CASES, *parts)) if os.path.isdir(os.path.join(CASES, *parts, it)))


def names_of_cases():
    """The cases of alphamu, on which all checks are run."""
    return [name for name in folders_in() if name != OF_STUDY]


def names_of_study_cases():
    """Those of alphamu_study, on which `cases.py` alone is run."""
    return [os.path.join(OF_STUDY, name) for name in folders_in(OF_STUDY)]


def is_proved(name):
    """Whether the proved program is there and no source is newer."""
    return subprocess.run([os.path.join(TOP, "checks", "program_state"), name], check=False).returncode == 0


def current(name):
    """The proved program if it is current, and otherwise the one for the present sources that is compiled unproved, which
    need not be there."""
    return os.path.join(TOP, "crates", name, "out", name) if is_proved(name) else unproved.kept(TOP, name)


# The programs that the checks run. They aren't the launchers, which may add a line of their own.
LAUNCHER = os.path.join(TOP, "alphamu")
PROGRAM, STUDY = map(current, unproved.CALLED)


def lacks_program():
    """Why there is no program to run, and the commands that make it; nothing if both are there."""
    if not all(map(unproved.is_there, (PROGRAM, STUDY))):
        return "there is no program for the present sources: run ./build, or ./build test"


def lacks_proved():
    """The same for the proved programs."""
    if not all(map(is_proved, unproved.CALLED)):
        return "there are no proved programs, or they are older than their sources: run ./build"


def faults(case):
    """One line for each thing that is wrong with the case itself."""
    args = bytes_of(case, "args")
    if not args and case != WITHOUT_WORDS:
        return ["it has no args, and isn't the case without words"]
    if args and not args.endswith(b"\n"):
        return ["the last line of its args has no end"]
    return []


def lay_out(case, room):
    """Puts the case's input files into a folder."""
    for name in os.listdir(os.path.join(CASES, case)):
        if name not in OWN:
            shutil.copy(os.path.join(CASES, case, name), room)
    for line in bytes_of(case, "fill").decode().splitlines():
        name, size = line.rsplit(" ", 1)
        with open(os.path.join(room, name), "ab") as file:
            file.write(b"\n" * (int(size) - file.tell()))


def words_of(case):
    return bytes_of(case, "args").split(b"\n")[:-1]


def run(program, case, seconds, env=None, more=(), words=None, files=None):
    """What the program wrote to standard output and standard error, and its exit status. `more` are further words, `words`
    replace the case's own, and `files` are further files by their names."""
    words = (words_of(case) if words is None else list(words)) + list(more)
    to = bytes_of(case, "stdout_to").decode().strip()
    with tempfile.TemporaryDirectory() as room:
        lay_out(case, room)
        for name, content in (files or {}).items():
            with open(os.path.join(os.fsencode(room), name), "wb") as file:
                file.write(content)
        with open(os.open(to, os.O_WRONLY), "wb") if to else tempfile.TemporaryFile() as out:
            ran = subprocess.run([os.fsencode(program), *words], cwd=room, stdin=subprocess.DEVNULL, stdout=out,
                                 stderr=subprocess.PIPE, timeout=seconds, env=env)
            if to:
                return b"", ran.stderr, ran.returncode
            out.seek(0)
            return out.read(), ran.stderr, ran.returncode


def expected(case):
    """What the case expects, as `run` returns it."""
    return bytes_of(case, "stdout"), bytes_of(case, "stderr"), int(bytes_of(case, "status") or 0)


def is_refused_alike(found, wanted):
    """Whether a study refuses as alphamu does. It says what is wrong with words, for which alphamu has one line."""
    text, line, status = found
    return found == wanted or (text, status) == (wanted[0], wanted[2]) == (b"", 2) and line.startswith(b"alphamu: ") and b"usage" not in line


def misunderstood(line):
    """What a run of alphamu_study gives whose words aren't understood, if this is the line that says why."""
    return b"", b"alphamu: %s\n" % line, jobs.REFUSED


def differences(found, wanted):
    """One line for each thing in which the outcome of a run differs."""
    return [f"{what}: {found[at]!r}, and not {wanted[at]!r}"
            for at, what in enumerate(("standard output", "standard error", "exit status")) if found[at] != wanted[at]]


def judge(program, case, seconds):
    """One line for each fault of the case, or, if it has none, for each thing in which the program differs from it."""
    try:
        return faults(case) or differences(run(program, case, seconds), expected(case))
    except subprocess.TimeoutExpired:
        return [f"no end after {seconds} seconds"]
    except OSError as error:
        return [f"not run: {error}"]


def report(cases, told):
    """Prints the lines about each case, and returns how many cases have any."""
    for case, lines in zip(cases, told):
        if lines:
            print(f"{case}: {bytes_of(case, 'about').decode().strip()}")
        for line in lines:
            print(f"    {line}")
    return sum(bool(lines) for lines in told)


def parser_of(description):
    """A parser for the words that all checks over the cases take."""
    parser = argparse.ArgumentParser(description=description, allow_abbrev=False)
    parser.add_argument("program", nargs="?", default=PROGRAM)
    parser.add_argument("--jobs", type=int, default=len(os.sched_getaffinity(0)))
    parser.add_argument("--seconds", type=float, default=1200)
    parser.add_argument("--only", default="*", metavar="PATTERN")
    return parser


def is_ready(program, check):
    """Whether there is a program to run. Prints a line if there is none."""
    lacking = lacks_program() if program == PROGRAM else None
    if lacking:
        print(f"{check}: {lacking}")
    return not lacking


def main():
    parser = parser_of("Runs alphamu on the repository's cases.")
    given = parser.parse_args()
    every, of_study = names_of_cases(), names_of_study_cases()
    if not is_ready(given.program, "cases"):
        return 1
    if len(every) < LEAST or len(of_study) < LEAST_OF_STUDY:
        print(f"cases: there are only {len(every)} cases of {LEAST}, and {len(of_study)} of {LEAST_OF_STUDY}")
        return 1
    program, cases = os.path.abspath(given.program), fnmatch.filter(every + of_study, given.only)
    with ThreadPoolExecutor(given.jobs) as pool:
        told = list(pool.map(lambda case: judge(STUDY if case in of_study else program, case, given.seconds), cases))
    failed = report(cases, told)
    print(f"cases: {len(cases) - failed} agree, {failed} differ")
    return 0 if cases and not failed else 1


if __name__ == "__main__":
    sys.exit(main())
