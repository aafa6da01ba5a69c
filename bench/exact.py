#!/usr/bin/env python3
"""exact.py PROGRAM [OTHER] [--boards N] [--rows TRICKS-LAYOUTS,..]

Times how long it takes to find how many layouts of a board one strategy wins, with all cards planned, by winnable sets and cores.

PROGRAM is a build of the workloads of crates/bench_work, which is asked for `sets DEAL LAYOUTS MOST`. OTHER is a second program that is
asked for the same and prints a line of the same form: another build, or the same search in another language. Both must find the same value
on every board. They run in turns, one process at a time.

The boards are made as those of examples/evening are, from the seeds 1, 2, 3 and so on, and aren't chosen by hand. Each is asked about at the
level of the contract at which the value is nearest to half of the layouts, if there is one with a value from a quarter to nine tenths of them;
other boards are left out. Rows: 7, 9 and 11 tricks with 20 and 64 layouts, and 13 tricks with 20, of N boards each (default 12).

A row has the positions entered and the seconds of the processor that a run takes more than one that may enter none, for all its boards
together and for the slowest; with OTHER, also the geometric mean of PROGRAM's seconds as a multiple of OTHER's, where a millisecond is added
to both. Other work on the machine slows both down: the last line says how much of it there was."""
import argparse
import os
import pathlib
import re
import statistics
import sys
import tempfile

from boards import make
from timing import processor_seconds

ROWS = "7-20,7-64,9-20,9-64,11-20,11-64,13-20"
MOST, LEVELS = 3_000_000, range(1, 8)


class Answer:
    """What a program says of a board: the value, if it is exact, the positions entered, and the seconds."""

    def __init__(self, program, deal, layouts):
        words = [program, "sets", deal, layouts]
        idle = processor_seconds([*words, 0])[0]
        took, told = processor_seconds([*words, MOST])
        least, most, positions = map(int, re.fullmatch(r"(\d+) to (\d+) layouts, (\d+) positions\n", told).groups())
        self.value, self.positions, self.seconds = least if least == most else None, positions, max(took - idle, 0)


def contested(program, seed, tricks, count, deal, layouts):
    """Writes the board of a seed at its contested level, and returns what the program says of it; nothing if it isn't contested."""
    chance = make.Chance(seed)
    table = make.board(chance, 13 - tricks)
    lines, found = make.layouts(table, chance, count), []
    if len(lines) < count:
        return None
    make.write(layouts, lines)
    for level in LEVELS:
        make.write(deal, make.game(1, table, level))
        answer = Answer(program, deal, layouts)
        if answer.value is not None and count / 4 <= answer.value <= count * 9 / 10:
            found.append((abs(answer.value - count / 2), level, answer))
        if answer.value == 0:
            break
    if not found:
        return None
    _, level, answer = min(found, key=lambda it: it[:2])
    make.write(deal, make.game(1, table, level))
    return answer


def row(given, tricks, count, deal, layouts):
    ours, theirs, seed = [], [], 0
    while len(ours) < given.boards:
        seed += 1
        if answer := contested(given.program, seed, tricks, count, deal, layouts):
            ours.append(answer)
            if given.other:
                theirs.append(Answer(given.other, deal, layouts))
                if theirs[-1].value != answer.value:
                    sys.exit(f"{tricks} tricks, {count} layouts, seed {seed}: {answer.value} and {theirs[-1].value} layouts")
    cells = [tricks, count]
    for answers in filter(None, (ours, theirs)):
        seconds = [it.seconds for it in answers]
        cells += [sum(it.positions for it in answers), "%.2f (%.2f)" % (sum(seconds), max(seconds))]
    if theirs:
        cells.append("%.2f" % statistics.geometric_mean((one.seconds + 1e-3) / (two.seconds + 1e-3) for one, two in zip(ours, theirs)))
    print("| " + " | ".join(map(str, cells)) + " |", flush=True)


def main():
    parser = argparse.ArgumentParser(description=__doc__, formatter_class=argparse.RawDescriptionHelpFormatter)
    parser.add_argument("program", type=pathlib.Path)
    parser.add_argument("other", type=pathlib.Path, nargs="?")
    parser.add_argument("--boards", type=int, default=12)
    parser.add_argument("--rows", default=ROWS)
    given = parser.parse_args()
    sides = ["", ", other"][:1 + bool(given.other)]
    heads = ["tricks", "layouts", *(head + side for side in sides for head in ("positions", "seconds (slowest)")), *["ratio"] * bool(given.other)]
    print("| " + " | ".join(heads) + " |\n|" + "---|" * len(heads))
    with tempfile.TemporaryDirectory() as room:
        for it in given.rows.split(","):
            tricks, count = map(int, it.split("-"))
            row(given, tricks, count, pathlib.Path(room) / "deal.pbn", pathlib.Path(room) / "layouts.lay")
    print(f"again: bench/exact.py {' '.join(sys.argv[1:])}; {os.cpu_count()} processors, "
          f"{os.getloadavg()[2]:.1f} processes at work or waiting in the last quarter of an hour")


if __name__ == "__main__":
    main()
