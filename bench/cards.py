#!/usr/bin/env python3
"""Times every card side by side (`cards` of alphamu_study) against `solve` of alphamu with as many moves, in one run.

The endings are random ones of seven tricks with 20 layouts; sampling decides nothing about which are taken. `cards` is asked with a limit of
MOVES moves, so it may stop with fewer; `solve` plans as many as `cards` says that it did.

Usage: bench/cards.py [ENDINGS] [RUNS]: how many endings (default 20), and how often each is timed (default 3); the fastest counts. The
programs must be built: ./build."""
import math
import pathlib
import re
import sys
import tempfile

from search import random_ending
from timing import processor_seconds

CRATES = pathlib.Path(__file__).resolve().parent.parent / "crates"
PROGRAM, STUDY = (CRATES / name / "out" / name for name in ("alphamu", "alphamu_study"))
TRICKS, LAYOUTS, MOVES = 7, 20, 4


def fastest(runs, program, job, files, moves):
    words = [program, "--job", job, *files, "--moves", str(moves)]
    timed = [processor_seconds(words) for _ in range(runs)]
    return min(seconds for seconds, _ in timed), timed[0][1]


def main():
    endings, runs = [*map(int, sys.argv[1:]), *(20, 3)[len(sys.argv) - 1:]]
    ratios = []
    with tempfile.TemporaryDirectory() as folder:
        deal, layouts = pathlib.Path(folder, "deal"), pathlib.Path(folder, "layouts")
        for seed in range(1, endings + 1):
            ending = random_ending(TRICKS, LAYOUTS, MOVES, seed)
            deal.write_text(ending.deal)
            layouts.write_text(ending.layouts)
            files = ["--deal", str(deal), "--layouts", str(layouts)]
            ours, text = fastest(runs, STUDY, "cards", files, MOVES)
            moves = int(re.search(r"^moves (\d+)$", text, re.M)[1])
            theirs, _ = fastest(runs, PROGRAM, "solve", files, moves)
            ratios.append(ours / theirs)
            print(f"seed {seed:3}  moves {moves}  cards {ours:7.3f} s  solve {theirs:7.3f} s  ratio {ratios[-1]:5.2f}")
    mean = math.exp(sum(map(math.log, ratios)) / len(ratios))
    print(f"cards to solve: mean {mean:.2f}, least {min(ratios):.2f}, most {max(ratios):.2f}")


if __name__ == "__main__":
    main()
