#!/usr/bin/env python3
"""workers.py [RUNS [short]]

Times alphamu with 1, 2 and 4 workers, in one run on one machine, and prints ratios: the best of RUNS runs (default 3).

- Without cuts, `card` on an ending whose eight root cards have trees of the same size: two low cards in each suit, and for each layout also
  those with its suits exchanged. The ratio is the wall clock with one worker to that with 2 and 4, and the time of all processors with 4
  workers to that with one.
- With cuts, `card` on short random endings, of less than half a second.
- With cuts, `card` and `solve` on long random boards of 11 to 13 tricks, whose layouts are drawn by shuffling the defenders' cards. They
  take one worker seconds; with the word `short` they are left out. They run once if RUNS is 1, and otherwise twice.

The column of four runs shows how much four separate runs, with one worker each, get done in the time of one alone: four workers that share
nothing can hardly do better. On processors that share a core, or on a busy machine, that stays below 4. Workers who share a memo of double
dummy can be faster than that, since it has more room.

The ratios mean little on a machine with fewer than four processors or with other work, so the script prints the number of processors and
how many processes are running or waiting.

The program must be built: ./build."""
import os
import pathlib
import random
import resource
import subprocess
import sys
import tempfile
import time

from search import random_ending

PROGRAM = pathlib.Path(__file__).resolve().parent.parent / "crates" / "alphamu" / "out" / "alphamu"
RANKS = "AKQJT98765432"
# Tricks, layouts, moves, seeds and needs of the random endings. If there is no need it is half of the tricks.
RANDOM = [(8, 20, 6, seed, None) for seed in (1, 2, 3, 4)]
LONG = [(12, 64, 2, 3, 8), (12, 64, 4, 6, 8), (13, 20, 4, 12, 5), (12, 20, 5, 9, 10), (11, 64, 5, 12, 4), (13, 64, 2, 3, 8), (12, 64, 4, 3, 8),
        (13, 64, 4, 4, 6)]


def hand(cards):
    return ".".join("".join(sorted((card[1] for card in cards if card[0] == suit), key=RANKS.index)) for suit in "SHDC")


def turned(cards, places):
    """The cards with each suit moved on by this many places."""
    return ["SHDC"[("SHDC".index(card[0]) + places) % 4] + card[1] for card in cards]


def eight_cards(moves):
    """Eight tricks at no trump. Dummy leads, with 42 in each suit, South has K5 in each, and the defenders' sixteen cards are drawn sixteen times."""
    draws, unseen, layouts = random.Random(7), [suit + rank for suit in "SHDC" for rank in "QJ97"], set()
    north, south = ".".join(["42"] * 4), ".".join(["K5"] * 4)
    while len(layouts) < 64:
        draws.shuffle(unseen)
        sides = [(hand(turned(unseen[:8], places)), hand(turned(unseen[8:], places))) for places in range(4)]
        layouts |= {f"N:{north} {east} {south} {west}\n" for east, west in sides}
    deal = f'[Deal "N:{north} - {south} -"]\n[Declarer "S"]\n[Contract "1NT"]\n[EndNeed "4"]\n[EndLead "N"]\n'
    return "eight like cards", deal, "".join(sorted(layouts)), moves


def timed(words):
    """Seconds by the wall clock, seconds of all processors, and what was printed."""
    before, start = resource.getrusage(resource.RUSAGE_CHILDREN), time.monotonic()
    done = subprocess.run([str(word) for word in words], capture_output=True, text=True)
    wall, after = time.monotonic() - start, resource.getrusage(resource.RUSAGE_CHILDREN)
    if done.returncode != 0:
        sys.exit(f"{words}: status {done.returncode}, {done.stderr}")
    return wall, after.ru_utime - before.ru_utime, done.stdout


def side_by_side(words, count):
    """Seconds by the wall clock until this many runs, started together, have ended."""
    start = time.monotonic()
    runs = [subprocess.Popen([str(word) for word in words], stdout=subprocess.DEVNULL, stderr=subprocess.DEVNULL) for _ in range(count)]
    for run in runs:
        if run.wait() != 0:
            sys.exit(f"{words}: status {run.returncode}")
    return time.monotonic() - start


def row(name, deal, layouts, moves, more, runs, job="card"):
    """Prints the ratios of an ending."""
    with tempfile.TemporaryDirectory() as folder:
        files = pathlib.Path(folder) / "deal.pbn", pathlib.Path(folder) / "layouts.lay"
        files[0].write_text(deal)
        files[1].write_text(layouts)
        words = [PROGRAM, "--job", job, "--deal", files[0], "--layouts", files[1], "--moves", moves, "--nodes", 2 ** 60, *more]
        told = {workers: [timed([*words, "--workers", workers]) for _ in range(runs)] for workers in (1, 2, 4)}
        beside = min(side_by_side([*words, "--workers", 1], 4) for _ in range(runs))
    if len({out for runs_of in told.values() for _, _, out in runs_of}) != 1:
        sys.exit(f"{name}: the runs print different bytes")
    wall = {workers: min(it[0] for it in runs_of) for workers, runs_of in told.items()}
    user = {workers: min(it[1] for it in runs_of) for workers, runs_of in told.items()}
    print("%-20s%6s%7d%10.2f s%10.2f%10.2f%10.2f%12.2f" % (
        name, "no" if more else "yes", moves, wall[1], wall[1] / wall[2], wall[1] / wall[4], 4 * wall[1] / beside, user[4] / user[1]), flush=True)


def main():
    runs = int(sys.argv[1]) if len(sys.argv) > 1 else 3
    print(f"{os.cpu_count()} processors, {os.getloadavg()[0]:.1f} processes running or waiting before the run")
    print("ending                cuts  moves  one worker  2 workers 4 workers  four runs  user, 4 to 1")
    row(*eight_cards(6), ["--no-cuts"], runs)
    for tricks, layouts, moves, seed, need in RANDOM:
        ending = random_ending(tricks, layouts, moves, seed, need)
        row(ending.name, ending.deal, ending.layouts, moves, [], runs)
    for job in () if "short" in sys.argv else ("card", "solve"):
        print(f"long boards, {job}:")
        for tricks, layouts, moves, seed, need in LONG:
            ending = random_ending(tricks, layouts, moves, seed, need)
            row(ending.name, ending.deal, ending.layouts, moves, [], min(runs, 2), job)


if __name__ == "__main__":
    main()
