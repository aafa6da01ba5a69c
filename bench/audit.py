#!/usr/bin/env python3
"""Times the jobs `prove` and `audit` on endings whose log has at most a sixteenth of the bytes that a log may have, and `audit` on
the same log repeated until it has 4 MiB, and 16 MiB, which is the limit.

A log is repeated whole, each time with the numbers of its lines raised, so that it stays valid. For each ending the script prints
the bytes and lines of the log itself, the time of `audit` as a multiple of that of `prove`, the bytes per second of the longest log,
its time per byte as a multiple of that of the 4 MiB log, and the smallest stack that is enough for the log itself and for the
longest one.

Then it times logs made to keep `audit` busy. In the first, a leaf and the union that cites it share the bytes: with 3 layouts
all vectors of the leaf are the same and all but one of the union's are zeros; with 20 layouts none of the vectors dominates
another. In the second, a join cites two leaves with the same number of vectors, and no meet of two of them dominates another.

Usage: bench/audit.py [RUNS], the number of times that each is timed (default 3); the fastest counts. It builds the program first if
that is needed."""
import itertools
import pathlib
import resource
import subprocess
import sys
import tempfile

from check import Problem, least_stack
from search import BUILD, CLUBS, DIAMONDS, HEARTS, SPADES, Ending, random_ending
from timing import processor_seconds

MOST_BYTES = 16_777_216
ENDINGS = [(4, 8, 3, 1), (5, 20, 3, 2), (5, 64, 3, 4)]


def raised(line, by):
    """The line with its numbers raised."""
    rule, path, moves, cites, vectors = line.split(" ")
    if cites != "-":
        cites = ",".join(str(int(number) + by) for number in cites.split(","))
    return " ".join((rule, path, moves, cites, vectors))


def repeated(log, most):
    """The log, repeated as often as fits into this many bytes, and how many lines it then has."""
    first, *lines, end = log.splitlines()
    written, room, count = [], most - len(first) - len(end) - 2, 0
    while True:
        more = [raised(line, count) for line in lines]
        room -= sum(len(line) + 1 for line in more)
        if room < 0:
            return "\n".join((first, *written, end)) + "\n", count
        written += more
        count += len(lines)


def least_time(words, told, runs):
    times = []
    for _ in range(runs):
        seconds, text = processor_seconds(words)
        if told not in (None, text):
            sys.exit(f"{words}: {text!r}")
        times.append(seconds)
    return min(times), text


def row(ending, folder, runs):
    problem = Problem(folder, ending)
    report = folder / "report"
    moves = ("--moves", ending.moves)
    report.write_text(processor_seconds(problem.words("solve", *moves, "--nodes", 2 ** 60))[1])
    prove, log = least_time(problem.words("prove", *moves, "--nodes", 2 ** 28), None, runs)
    if len(log) > MOST_BYTES // 16:
        sys.exit(f"{ending.name}: the log has {len(log)} bytes")
    taken, words, lengths = [], [], []
    for most in (len(log), MOST_BYTES // 4, MOST_BYTES):
        text, lines = repeated(log, most)
        path = folder / f"log {most}"
        path.write_text(text)
        words.append((problem.words("audit", "--report", report, "--log", path), (0, f"alphamu audit 1\nlines {lines}\ncomplete\n", "")))
        taken.append(least_time(words[-1][0], words[-1][1][1], runs)[0])
        lengths.append(len(text))
    stack = least_stack(*words[0])
    print("%-20s%9d%9d%9d%10.2f%14.3g%18.2f%10d%10d" % (
        ending.name, ending.width, lengths[0], len(log.splitlines()) - 2, taken[0] / prove, lengths[2] / taken[2],
        taken[2] / lengths[2] / (taken[1] / lengths[1]), stack, least_stack(*words[2], stack)), flush=True)


def judged(problem, report, name, lines, told):
    """Seconds of the processor that `audit` takes for the log of these lines, and the log's bytes. It must answer as told."""
    path = problem.folder / name
    path.write_text("\n".join(("alphamu log 1", *lines, "end", "")))
    before = resource.getrusage(resource.RUSAGE_CHILDREN)
    done = subprocess.run(problem.words("audit", "--report", report, "--log", path), capture_output=True, text=True)
    after = resource.getrusage(resource.RUSAGE_CHILDREN)
    if (done.returncode, done.stdout, done.stderr) != told:
        sys.exit(f"{path}: {(done.returncode, done.stdout, done.stderr)}")
    return after.ru_utime + after.ru_stime - before.ru_utime - before.ru_stime, path.stat().st_size


def solved(folder, ending):
    """The problem of an ending, and its report in a file."""
    problem, report = Problem(folder, ending), folder / "report"
    report.write_text(processor_seconds(problem.words("solve", "--moves", ending.moves, "--nodes", 2 ** 60))[1])
    return problem, report


def unproved(line):
    return 16, "", f"alphamu: log line {line} not proved\n"


def with_half_made(layouts):
    """All vectors in which half of the layouts are made."""
    return ("".join("01"[place in made] for place in range(layouts)) for made in map(set, itertools.combinations(range(layouts), layouts // 2)))


def long_lines(folder, ending, lengths, are_apart):
    """A leaf and the union that cites it, each with as many vectors as half of the log has room for. If they are apart, none of
    them dominates another; else those of the leaf are the same, and all but one of the union's are zeros."""
    problem, report = solved(folder, ending)
    *lines, leaf, union = processor_seconds(problem.words("prove", "--moves", 1, "--nodes", 2 ** 28))[1].splitlines()[1:-1]
    told = unproved(len(lines) + 3) if are_apart else (0, f"alphamu audit 1\nlines {len(lines) + 2}\ncomplete\n", "")
    for length in lengths:
        # The other lines take less than a kilobyte.
        count = (length - 1024) // 2 // (ending.width + 1) - 1
        texts = []
        for line, more in (leaf, leaf.rsplit(" ", 1)[1]), (union, "0" * ending.width):
            words, own = line.rsplit(" ", 1)
            vectors = itertools.islice(with_half_made(ending.width), count) if are_apart else itertools.repeat(more, count)
            texts.append(f"{words} {','.join((*vectors, own))}")
        seconds, size = judged(problem, report, f"long {length}", (*lines, *texts), told)
        print("%-20s%9d%9d%9d%10.3g%14.3g" % ("long lines", ending.width, size, count + 1, seconds, size / seconds), flush=True)


def wide_join(folder, counts):
    """A join of two leaves, each of which has all layouts of one half and all but three of the other."""
    others = (*DIAMONDS[2:6], *CLUBS[:3])
    wests = [sorted((SPADES[12], *(card for card in others if card not in easts))) for easts in itertools.combinations(others, 3)]
    ending = Ending("join", SPADES[:5], HEARTS[:5], wests, (SPADES[12], *DIAMONDS[:6], *CLUBS[:3]), "NT", 5, "N", 2)
    problem, report = solved(folder, ending)
    half, rest = len(wests) // 2, len(wests) - len(wests) // 2
    parts = ["".join("10"[place in lost] for place in range(half)) for lost in itertools.combinations(range(half), 3)]
    for count in counts:
        leaves = ",".join(part + "1" * rest for part in parts[:count]), ",".join("1" * rest + part for part in parts[:count])
        lines = f"leaf S2.D2 1 - {leaves[0]}", f"leaf S2.D3 1 - {leaves[1]}", f"join S2 1 1,2 {'1' * (half + rest)}"
        seconds, size = judged(problem, report, f"join {count}", lines, unproved(4))
        print("%-20s%9d%9d%9d%10.3g%14.3g" % ("a join", len(wests), size, count, seconds, count ** 4 / 2 / seconds), flush=True)


def hostile(folder):
    print("hostile             layouts    bytes  vectors   seconds  bytes/second")
    long_lines(folder, random_ending(4, 3, 1, 1), (MOST_BYTES // 64, MOST_BYTES // 16, MOST_BYTES // 4, MOST_BYTES), False)
    long_lines(folder, random_ending(4, 20, 1, 1, 4), (MOST_BYTES // 64, MOST_BYTES // 32, MOST_BYTES // 16), True)
    print("hostile             layouts    bytes  vectors   seconds  pairs/second")
    wide_join(folder, (50, 100, 200, 400))


def main():
    runs = int(sys.argv[1]) if len(sys.argv) > 1 else 3
    if subprocess.run([BUILD]).returncode != 0:
        sys.exit("the program could not be built")
    print("ending                layouts    bytes    lines  to prove  bytes/second  a byte, 16 to 4     stack  of 16 MiB")
    with tempfile.TemporaryDirectory() as folder:
        for tricks, layouts, moves, seed in ENDINGS:
            row(random_ending(tricks, layouts, moves, seed), pathlib.Path(folder), runs)
        hostile(pathlib.Path(folder))


if __name__ == "__main__":
    main()
