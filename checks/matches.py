#!/usr/bin/env python3
"""matches.py [--jobs N] [--seconds N] [--only PATTERN] [PROGRAM]

Plays out each kept layout of each case in cases/ that expects a report, twice: against two defenders who play low, and
with one at declarer's left who plays high from the first card on. The bits must be those of the first vector of the
report, and a layout with a 1 must be made. If you name no program it is that of cases.py. The exit status is
0 only if nothing differs and something was played.
"""
import fnmatch
import os
import sys
from concurrent.futures import ThreadPoolExecutor

from cases import expected, is_ready, names_of_cases, parser_of, run, words_of
from options import job_of

CHOICES = ([], [b"--switch", b"1"])


def lines_of(text):
    """The rest of each line by its first word. If several lines begin with a word, the first counts."""
    found = {}
    for line in text.splitlines():
        word, _, value = line.partition(b" ")
        found.setdefault(word, value)
    return found


def as_match(words):
    """The words for the job `match`, from those for the job `solve`."""
    return [b"match" if word == b"solve" else b"--job=match" if word == b"--job=solve" else word for word in words]


def judge(program, case, layout, bit, choice, seconds):
    """What is wrong with a match in a layout, if anything, and whether it was made."""
    words = as_match(words_of(case)) + [b"--layout", layout, *choice]
    out, _, status = run(program, case, seconds, words=words)
    found = lines_of(out)
    named = f"{case} in layout {layout.decode()} {b' '.join(choice).decode()}"
    if status or found.get(b"bit") != bit:
        return f"{named}: exit status {status}, bit {found.get(b'bit')}, and not {bit}", False
    made = found.get(b"made") == b"1"
    return (f"{named}: a layout with a 1 isn't made" if bit == b"1" and not made else None), made


def plays(cases):
    """The case, layout, bit and choice of each match."""
    for case in cases:
        text, _, status = expected(case)
        if status or job_of(words_of(case)) != "solve":
            continue
        lines = lines_of(text)
        vector = lines[b"vector"].split(b" ")[0]
        for place, layout in enumerate(lines[b"kept"].split(b" ")):
            for choice in CHOICES:
                yield case, layout, vector[place:place + 1], choice


def main():
    parser = parser_of("Plays the layouts of alphamu's cases out.")
    given = parser.parse_args()
    if not is_ready(given.program, "matches"):
        return 1
    program = os.path.abspath(given.program)
    matches = list(plays(fnmatch.filter(names_of_cases(), given.only)))
    with ThreadPoolExecutor(given.jobs) as pool:
        told = list(pool.map(lambda one: judge(program, *one, given.seconds), matches))
    wrong = [line for line, _ in told if line]
    for line in wrong:
        print(line)
    print(f"matches: {len(matches)} played, {sum(made for _, made in told)} made, {len(wrong)} wrong")
    return 0 if matches and not wrong else 1


if __name__ == "__main__":
    sys.exit(main())
