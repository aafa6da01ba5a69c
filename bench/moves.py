#!/usr/bin/env python3
"""moves.py [BOARDS [FIRST [LAST]]]

What moves cost on contested boards, and what they tell. It prints a table with a row for each number of tricks left, from FIRST to LAST
(default 7 to 13), each over BOARDS boards (default 8) with 20 layouts: the processor seconds of the job `card` with 2, 4 and 6 moves and
with all, as the median and in brackets the slowest board. Beyond ten tricks all moves aren't tried. It also counts on how many boards the
count that sampling believes in is too high, and on how many sampling names another card than `card` with all moves does. A board that
takes more than LIMIT seconds of the processor is left out of these two.

The boards are made as those of examples/evening are, from the seeds 1, 2, 3 and so on, and aren't chosen by hand. A board is contested if,
at some level of the contract, sampling makes it in a quarter to nine tenths of the layouts; of such levels the one nearest to half is asked
about. Seconds are those of the processor, but other work on the machine still slows them down: the last line says how much of it there was.

The program must be built: ./build."""
import os
import pathlib
import re
import resource
import statistics
import subprocess
import sys
import tempfile

from boards import make
from workers import PROGRAM

LAYOUTS, MOVES, ALL, MOST_TRICKS_FOR_ALL, LIMIT = 20, (2, 4, 6), 26, 10, 100


def limit():
    resource.setrlimit(resource.RLIMIT_CPU, (LIMIT, LIMIT))


def ask(job, deal, layouts, *more):
    """Seconds of the processor and what is printed; nothing is printed if it takes too long."""
    words = [PROGRAM, "--job", job, "--deal", deal, "--layouts", layouts, *map(str, more)]
    before = resource.getrusage(resource.RUSAGE_CHILDREN)
    done = subprocess.run(words, capture_output=True, text=True, preexec_fn=limit)
    after = resource.getrusage(resource.RUSAGE_CHILDREN)
    if done.returncode > 0:
        sys.exit(f"{words}: status {done.returncode}, {done.stderr}")
    return after.ru_utime - before.ru_utime + after.ru_stime - before.ru_stime, done.stdout if done.returncode == 0 else None


def sampled(deal, layouts):
    """The card that sampling names and its count."""
    rows = re.findall(r"^card (\S+) vector \S+ count (\d+)$", ask("fusion", deal, layouts)[1], re.M)
    return max(((card, int(count)) for card, count in rows), key=lambda it: it[1])


def contested(seed, tricks, deal, layouts):
    """Writes the board of a seed at its contested level, and says what sampling believes; nothing if it isn't contested."""
    chance = make.Chance(seed)
    table = make.board(chance, 13 - tricks)
    lines, found = make.layouts(table, chance, LAYOUTS), []
    if len(lines) == LAYOUTS:
        make.write(layouts, lines)
        for level in range(1, 8):
            make.write(deal, make.game(1, table, level))
            found.append((level, *sampled(deal, layouts)))
    found = [it for it in found if LAYOUTS / 4 <= it[2] <= LAYOUTS * 9 / 10]
    if found:
        level, card, count = min(found, key=lambda it: abs(it[2] - LAYOUTS / 2))
        make.write(deal, make.game(1, table, level))
        return card, count


def with_all(printed, card, count):
    """Whether sampling's count is too high, and whether another card is named."""
    named, most = re.search(r"^card (\S+) count (\d+) of", printed, re.M).groups()
    return int(most) < count, named != card


def told(seconds):
    """The median and the slowest."""
    middle, most = ("over %d" % LIMIT if it >= LIMIT else "%.2g" % it if it < 10 else "%.0f" % it
                    for it in (statistics.median_low(seconds), max(seconds)))
    return f"{middle} ({most})"


def row(tricks, boards, deal, layouts):
    moves = [*MOVES, ALL] if tricks <= MOST_TRICKS_FOR_ALL else MOVES
    seconds, verdicts, seed, found = {it: [] for it in moves}, [], 0, 0
    while found < boards:
        seed += 1
        if believed := contested(seed, tricks, deal, layouts):
            found += 1
            for it in moves:
                took, printed = ask("card", deal, layouts, "--moves", it, "--nodes", 2 ** 60)
                seconds[it].append(took if printed else LIMIT)
                if it == ALL and printed:
                    verdicts.append(with_all(printed, *believed))
    cells = [told(seconds[it]) if it in moves else "" for it in (*MOVES, ALL)]
    counts = ["%d of %d" % (sum(it[place] for it in verdicts), len(verdicts)) if verdicts else "" for place in (0, 1)]
    print("| " + " | ".join([str(tricks), *cells, *counts]) + " |", flush=True)


def main():
    boards, first, last = map(int, sys.argv[1:] + ["8", "7", "13"][len(sys.argv) - 1:])
    print("| " + " | ".join(["Tricks left", *(f"{it} moves" for it in MOVES), "all moves", "sampling too high", "another card"]) + " |")
    print("|" + "---|" * (len(MOVES) + 4))
    with tempfile.TemporaryDirectory() as room:
        for tricks in range(first, last + 1):
            row(tricks, boards, pathlib.Path(room) / "deal.pbn", pathlib.Path(room) / "layouts.lay")
    print(f"again: bench/moves.py {boards} {first} {last}; {os.cpu_count()} processors, "
          f"{os.getloadavg()[2]:.1f} processes at work or waiting in the last quarter of an hour")


if __name__ == "__main__":
    main()
