#!/usr/bin/env python3
"""first_answer.py [--seconds N]

Asks ./alphamu and ./study as in a fresh clone, in which nothing is built. The first question has the programs compiled,
unproved; it must say every few seconds how far it has come. From then on nothing is compiled, and a question may take
LEAST_LONG seconds of a processor. Then runs a sample of the cases, and compares standard output, standard error except the
launchers' own lines, and exit status with what each case expects. Prints what differs, and how long the first answer took.
The exit status is 0 only if all agree, the toolchain compiled each program once, and nothing is left but the programs.
"""
import argparse
import os
import resource
import shutil
import subprocess
import sys
import tempfile
import time

sys.dont_write_bytecode = True
import cases
import unproved

FIRST, OF_STUDY = "queen-two-ways", os.path.join(cases.OF_STUDY, "cards-queen-two-ways")
# Each job and each exit status that a case has, in runs that are quick.
SAMPLE = """
    no-words words-that-are-no-text words-with-blanks-in-names queen-two-ways made-of-0 prove-two-moves check-card-exchanged
    deal-file-not-there deal-no-text layouts-none-left fusion-defender-to-play nodes-too-few output-that-takes-nothing
    deal-file-too-long check-report-cut-off list-of-too-many match-no-such-layout audit-log-without-end audit-card-left-out
    boards-nodes-spent boards-of-65-games
""".split()
LEAST_LONG = 2


def copy_to(clone):
    """Copies the repository's files, without what is built, as a fresh clone has them."""
    shutil.copytree(cases.TOP, clone, ignore=shutil.ignore_patterns("out", "cases", ".git", "__pycache__"))


def count_calls(room):
    """The environment in which a call of the toolchain leaves a line in a file, and that file."""
    calls, script = os.path.join(room, "calls"), os.path.join(room, "rt")
    with open(script, "w", encoding="utf-8") as file:
        file.write(f"#!/bin/sh\necho \"${{PWD##*/}}\" >>'{calls}'\nexec '{shutil.which('rt')}' \"$@\"\n")
    os.chmod(script, 0o755)
    return {**os.environ, "PATH": f"{room}:{os.environ['PATH']}"}, calls


class Clone:
    def __init__(self, room, seconds):
        self.top, self.seconds = os.path.join(room, "clone"), seconds
        copy_to(self.top)
        self.env, self.calls = count_calls(room)

    def ask(self, case):
        """What a launcher answers to a case, without its lines, and those."""
        called = "study" if case.startswith(cases.OF_STUDY + os.sep) else "alphamu"
        out, err, status = cases.run(os.path.join(self.top, called), case, self.seconds, self.env)
        own = [f"{called}: {it.format(top=self.top)}\n".encode() for it in (unproved.BEGINNING, unproved.NOTICE, unproved.POINTER)]
        lines = [it for it in err.splitlines(True) if it in own or it.startswith(f"{called}: compiling: ".encode())]
        return (out, b"".join(it for it in err.splitlines(True) if it not in lines), status), lines

    def judge(self, case):
        """One line for each thing in which an answer differs."""
        found, lines = self.ask(case)
        words = [it.decode(errors="surrogateescape") for it in cases.words_of(case)]
        is_right = len(lines) == 1 if cases.expected(case)[2] != unproved.NO_WORDS else not lines
        return [*cases.differences(found, cases.expected(case)), *([] if is_right else [f"{words}: the launcher's lines: {lines}"])]


def used():
    children = resource.getrusage(resource.RUSAGE_CHILDREN)
    return children.ru_utime + children.ru_stime


def first(clone):
    """What is wrong with the first answer, which compiles, and how long it took."""
    begun = time.monotonic()
    found, lines = clone.ask(FIRST)
    took = time.monotonic() - begun
    print(f"first answer: after {took:.0f} s, with {len(lines)} lines that say so")
    wrong = cases.differences(found, cases.expected(FIRST))
    return wrong if len(lines) >= 2 + took // (4 * unproved.BETWEEN) else [*wrong, f"too few lines: {lines}"]


def later(clone, case):
    """What is wrong with a later answer, and how much of a processor it took."""
    before = used()
    wrong = clone.judge(case)
    took = used() - before
    return wrong if took < LEAST_LONG else [*wrong, f"it took {took:.1f} s of a processor"]


def main():
    parser = argparse.ArgumentParser(description="Asks as in a fresh clone.", allow_abbrev=False)
    parser.add_argument("--seconds", type=float, default=3600)
    given = parser.parse_args()
    with tempfile.TemporaryDirectory() as room:
        clone = Clone(os.path.realpath(room), given.seconds)
        told = [first(clone)]
        is_alone = len(unproved.names_to_compile("alphamu")) == 1
        if is_alone:
            clone.ask(OF_STUDY)
        told += [later(clone, it) for it in (FIRST, OF_STUDY)]
        told += [clone.judge(it) for it in SAMPLE]
        with open(clone.calls, encoding="utf-8") as file:
            calls = sorted(file.read().split())
        left = sorted(os.listdir(os.path.join(clone.top, "out", "unproved")))
    failed = cases.report([FIRST, FIRST, OF_STUDY, *SAMPLE], told)
    is_clean = calls == sorted(unproved.CALLED) and len(left) == 2
    if not is_clean:
        print(f"first answer: the toolchain was called for {calls}, and there is {left}")
    print(f"first answer: {len(told) - failed} agree, {failed} differ")
    return 0 if not failed and is_clean else 1


if __name__ == "__main__":
    sys.exit(main())
