#!/usr/bin/env python3
"""instructions.py BEFORE AFTER [WORD..]

Counts the instructions that two builds of alphamu take for the same questions, and prints their ratios. Other work on the machine changes
the counts little, so a change of a few percent shows. BEFORE and AFTER are two programs, such as those that ./build makes in copies
of the repository at two commits. The words are added to each question, for example --no-cuts --no-table.

- `solve` and `card` on six endings of 5 to 8 tricks with fronts of 1 to 97 vectors: all instructions, and those outside double dummy, which
  are those that aren't in a call of `makes` of `dd_solver`, or of the `search` below it if a compiler has put `makes` into its callers.
- `boards` with one worker on the evening of examples/evening, and how many instructions AFTER takes for it compared with `solve` on each
  board by itself. The reports must be the same.

Both programs must print the same bytes. It needs valgrind, whose callgrind counts."""
import math
import pathlib
import re
import subprocess
import sys
import tempfile
from concurrent.futures import ThreadPoolExecutor

from search import random_ending

TOP = pathlib.Path(__file__).resolve().parent.parent
# Tricks, layouts, seed, need (half of the tricks if there is none) and moves.
ENDINGS = [(7, 20, 2, None, 4), (8, 20, 1, None, 3), (6, 20, 41, 4, 4), (7, 20, 11, 2, 4), (5, 64, 52, 2, 3), (7, 64, 6, 3, 3)]
DOUBLE_DUMMY = ("dd_solver::solver::Solver::makes", "dd_solver::search::search")
MOVES = "4"


def number(text):
    return int(text.replace(",", ""))


def counted(program, words):
    """What the program prints, all its instructions, and those in calls of each function of double dummy that is there."""
    with tempfile.NamedTemporaryFile() as counts:
        tool = ["valgrind", "--tool=callgrind", f"--callgrind-out-file={counts.name}"]
        done = subprocess.run([*tool, program, *map(str, words)], capture_output=True, text=True)
        if done.returncode != 0:
            sys.exit(f"{program} {words}: status {done.returncode}, {done.stderr[-300:]}")
        shown = ["callgrind_annotate", "--inclusive=yes", "--threshold=100", counts.name]
        told = subprocess.run(shown, capture_output=True, text=True, check=True).stdout
    whole = number(re.search(r"([\d,]+) .*PROGRAM TOTALS", told)[1])
    inside = {name: re.search(rf"([\d,]+) .*:{name}(?: |$)", told, re.M) for name in DOUBLE_DUMMY}
    return done.stdout, whole, {name: number(found[1]) for name, found in inside.items() if found}


def outside(both):
    """Of two builds the instructions outside double dummy, by a function that both have."""
    names = [name for name in DOUBLE_DUMMY if all(name in inside for _, inside in both)]
    return [whole - (inside[names[0]] if names else 0) for whole, inside in both]


def questions(folder, more):
    """The words of each question, with its name."""
    for tricks, layouts, seed, need, moves in ENDINGS:
        ending = random_ending(tricks, layouts, moves, seed, need)
        deal = folder / f"{tricks}-{layouts}-{seed}.pbn"
        deal.write_text(ending.deal)
        deal.with_suffix(".lay").write_text(ending.layouts)
        for job in ("solve", "card"):
            words = ["--job", job, "--deal", deal, "--layouts", deal.with_suffix(".lay"), "--moves", moves, *more]
            yield f"{job}, {tricks} tricks, {layouts} layouts, {moves} moves", job, words
    subprocess.run([TOP / "examples" / "evening" / "make.py", folder], check=True)
    evening = folder / "evening.pbn", folder / "evening.lay"
    words = ["--job", "boards", "--deal", evening[0], "--layouts", evening[1], "--moves", MOVES, "--workers", 1, *more]
    yield f"boards, the evening, {MOVES} moves", "boards", words


def board_by_board(program, folder, reports, more, pool):
    """The instructions of `solve` on each board of the evening that isn't refused, whose reports must be those that `boards` printed."""
    games = (folder / "evening.pbn").read_text().split("\n\n")
    parts = dict(re.findall(r"^game (\d+)\n(.*?)(?=^game |^end boards)", reports, re.M | re.S))

    def solved(at):
        deal = folder / f"game.{at}.pbn"
        deal.write_text(games[at - 1].rstrip("\n") + "\n")
        words = ["--job", "solve", "--deal", deal, "--layouts", folder / f"evening.lay.{at}", "--moves", MOVES, *more]
        report, whole, _ = counted(program, words)
        if report != parts[str(at)]:
            sys.exit(f"board {at}: the report of boards differs from that of solve")
        return whole
    boards = [at for at in range(1, len(games) + 1) if not parts[str(at)].startswith("refused")]
    return sum(pool.map(solved, boards)), len(boards)


def mean(ratios):
    return math.exp(sum(map(math.log, ratios)) / len(ratios))


def main():
    if len(sys.argv) < 3:
        sys.exit(__doc__)
    before, after, *more = sys.argv[1:]
    ratios = {}
    print("instructions in millions           question     before      after  ratio   outside double dummy: before, after, ratio")
    with tempfile.TemporaryDirectory() as room, ThreadPoolExecutor(2) as pool:
        folder = pathlib.Path(room)
        for name, job, words in questions(folder, more):
            (old, *was), (new, *now) = pool.map(lambda program, words=words: counted(program, words), (before, after))
            if old != new:
                sys.exit(f"{name}: the programs print different bytes")
            pairs = [(was[0], now[0]), outside((was, now))]
            ratios.setdefault(job, []).append([new_count / old_count for old_count, new_count in pairs])
            cells = [cell for old_count, new_count in pairs for cell in (old_count / 1e6, new_count / 1e6, new_count / old_count)]
            print("%43s%11.1f%11.1f%7.3f%11.1f%11.1f%7.3f" % (name, *cells), flush=True)
        for job, rows in ratios.items():
            print("%-8sgeometric mean of the ratios: %.3f, outside double dummy %.3f" % (job, *map(mean, zip(*rows))))
        alone, boards = board_by_board(after, folder, new, more, pool)
        print(f"boards to solve on each of the {boards} boards by itself: {now[0] / alone:.3f}")


if __name__ == "__main__":
    main()
