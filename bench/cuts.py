#!/usr/bin/env python3
"""Times alphamu, with cuts and table, against a search in C++ that has both too, in one run, and prints ratios.

The baseline, cuts_baseline.cpp, is αμ as an engineer writes it in an afternoon: early cuts, double dummy as a bound, deepening at the
root, one of equal cards, and a table and a memo without bound. It finds only the front. alphamu's job `solve` finds the front and a plan
for each vector, and the script compares the fronts; the job `card` finds the card to play.

The endings have 5 to 8 tricks and 4, 20 and 64 layouts. Some are random, and mostly have fronts of one vector. The others were searched
for, and have fronts of 5 to about 100 vectors at three moves. A question that takes the baseline more than LIMIT seconds is left out,
and counted.

For the search alone, from the root, the script counts the nodes entered at three moves, with cuts and a store and with neither.

Usage: bench/cuts.py [MOVES], the most moves (default 6). It builds the workloads first; the program must be built: ./build."""
import math
import pathlib
import subprocess
import sys
import tempfile

from search import random_ending
from timing import WORKLOADS, build_workloads, processor_seconds

HERE = pathlib.Path(__file__).resolve().parent
PROGRAM = HERE.parent / "crates" / "alphamu" / "out" / "alphamu"
THEIRS = HERE / "build" / "cuts_baseline"
LIMIT = 10
# Tricks, layouts, seed and need of endings with wide fronts.
WIDE = [(5, 20, 69, 3), (5, 20, 196, 2), (5, 64, 52, 2), (5, 64, 45, 3), (6, 20, 41, 4), (6, 20, 25, 3), (6, 64, 25, 3),
        (6, 64, 17, 3), (7, 20, 11, 2), (7, 64, 6, 3)]


def endings():
    plain = [random_ending(tricks, layouts, 1, seed) for tricks in (5, 6, 7, 8) for layouts in (4, 20, 64) for seed in (1, 2)]
    return plain + [random_ending(tricks, layouts, 1, seed, need) for tricks, layouts, seed, need in WIDE]


def seconds_of(words, least=0.2):
    """The best of several runs, which together take this long; of at least three if they are short."""
    taken, told = processor_seconds(words)
    times = [taken]
    while sum(times) < least and len(times) < 3:
        times.append(processor_seconds(words)[0])
    return min(times), told


def compared(ending, folder, moves):
    """The seconds of the baseline, of `solve` and of `card`, and the length of the front; none if the baseline takes longer than the limit."""
    deal, layouts = folder / "deal.pbn", folder / "layouts.lay"
    deal.write_text(ending.deal)
    layouts.write_text(ending.layouts)
    try:
        subprocess.run([THEIRS, deal, layouts, str(moves)], capture_output=True, timeout=LIMIT)
    except subprocess.TimeoutExpired:
        return None
    theirs, told = seconds_of([THEIRS, deal, layouts, moves])
    words = ["--deal", deal, "--layouts", layouts, "--moves", moves]
    solve, report = seconds_of([PROGRAM, "--job", "solve", *words])
    card, _ = seconds_of([PROGRAM, "--job", "card", *words])
    expected = [line for line in told.splitlines() if line and set(line) <= set("01")]
    found = [line.split()[1] for line in report.splitlines() if line.startswith("vector ")]
    if expected != found:
        sys.exit(f"{ending.name}, {ending.width} layouts, {moves} moves: the fronts differ")
    return theirs, solve, card, len(found)


def nodes_of(ending, folder, kind, moves=3):
    """How many nodes the search enters, `plain` or with `cuts`."""
    deal, layouts = folder / "deal.pbn", folder / "layouts.lay"
    deal.write_text(ending.deal)
    layouts.write_text(ending.layouts)
    return int(processor_seconds([WORKLOADS, "search", deal, layouts, moves, kind])[1].split()[0])


def print_nodes(folder):
    """The nodes at three moves in the endings of 5 to 7 tricks."""
    shares = []
    for ending in endings():
        if not ending.name.startswith("8"):
            cuts, plain = (nodes_of(ending, folder, kind) for kind in ("cuts", "plain"))
            shares.append(cuts / plain)
            print("%-24s%7d nodes at 3 moves: %9d with cuts, %9d without: %.3f" % (ending.name, ending.width, cuts, plain, cuts / plain),
                  flush=True)
    print("nodes with cuts to nodes without: mean %.3f, worst %.3f" % (mean(shares), max(shares)))


def mean(ratios):
    return math.exp(sum(math.log(it) for it in ratios) / len(ratios))


def main():
    most = int(sys.argv[1]) if len(sys.argv) > 1 else 6
    THEIRS.parent.mkdir(exist_ok=True)
    subprocess.run(["g++", "-O2", "-o", THEIRS, HERE / "cuts_baseline.cpp"], check=True)
    build_workloads()
    print("seconds of the processor; solve and card as multiples of C++")
    print("ending                  layouts moves front      C++    solve     card")
    by_moves = {moves: [] for moves in range(1, most + 1)}
    left_out = 0
    with tempfile.TemporaryDirectory() as folder:
        for ending in endings():
            for moves in range(1, most + 1):
                row = compared(ending, pathlib.Path(folder), moves)
                if row is None:
                    left_out += most + 1 - moves
                    break
                theirs, solve, card, vectors = row
                by_moves[moves].append((solve / theirs, card / theirs))
                print("%-24s%7d%6d%6d%9.3f%9.2f%9.2f" % (ending.name, ending.width, moves, vectors, theirs, solve / theirs,
                                                        card / theirs), flush=True)
    print("\nmoves endings   solve: mean worst    card: mean worst")
    for moves, rows in by_moves.items():
        for_solve, for_card = [it[0] for it in rows], [it[1] for it in rows]
        print("%5d%8d%14.2f%6.2f%13.2f%6.2f" % (moves, len(rows), mean(for_solve), max(for_solve), mean(for_card), max(for_card)))
    with tempfile.TemporaryDirectory() as folder:
        print_nodes(pathlib.Path(folder))
    print(f"left out, since the baseline takes more than {LIMIT} seconds: {left_out}")
    print(f"again: bench/cuts.py {most}")


if __name__ == "__main__":
    main()
