#!/usr/bin/env python3
"""boards.py [RUNS]

Times alphamu's job `boards` with 1, 2 and 4 workers on evenings of 24 boards, in one run on one machine, and prints ratios of wall
clock: the best of RUNS runs (default 3).

- The evening of examples/evening after six tricks. Its boards were chosen, and one was passed out.
- Evenings of 24 boards that were not chosen, made by the same rules from other seeds, after five tricks. Declarer needs half of the
  tricks that are left.

The last columns give the bounds. One shows how much four separate runs of the whole evening, with one worker each, get done in the time
of one run alone: four workers can hardly do better than four runs that share nothing. On processors that share a core, or on a busy
machine, that stays below 4. The other shows the longest board's share of the evening: no number of workers is faster than that board.

All runs of an evening must print the same bytes. The ratios mean little on a machine with fewer than four processors or with other
work, so the script prints the number of processors and how many processes are running or waiting.

The program must be built: ./build."""
import os
import pathlib
import sys
import tempfile

from workers import PROGRAM, side_by_side, timed

TOP = pathlib.Path(__file__).resolve().parent.parent
sys.path.append(str(TOP / "examples" / "evening"))
sys.dont_write_bytecode = True
import make

BOARDS = 24
# Name, the tricks played, moves and the first seed of the evenings that were not chosen.
EVENINGS = [("after five tricks", 5, 4, first) for first in (1001, 2001, 3001)]


def chosen(folder):
    make.evening(folder)


def needing_half(seed, played, layouts):
    """A board after this many tricks, its layouts, and the level at which declarer needs half of the tricks that are left, or the nearest."""
    chance = make.Chance(seed)
    table = make.board(chance, played)
    return table, make.layouts(table, chance, layouts), min(7, max(1, table.taken() + (13 - played) // 2 - 6))


def by_chance(played, first):
    """Writes an evening of these boards."""
    def write(folder):
        games = []
        for number in range(1, BOARDS + 1):
            table, layouts, level = needing_half(first + number, played, make.LAYOUTS)
            games.append(make.game(number, table, level))
            make.write(folder / f"evening.lay.{number}", layouts)
        make.write(folder / "evening.pbn", make.with_empty_lines(games))
    return write


def longest_part(folder, moves):
    """The share of the evening's processor time that the longest board takes."""
    games = (folder / "evening.pbn").read_text().split("\n\n")
    took = []
    for number, game in enumerate(games, 1):
        if '[Contract "Pass"]' not in game:
            deal = folder / "one.pbn"
            deal.write_text(game.rstrip("\n") + "\n")
            words = ["--deal", deal, "--layouts", folder / f"evening.lay.{number}", "--moves", moves]
            took.append(timed([PROGRAM, "--job", "solve", *words])[1])
    return max(took) / sum(took)


def row(name, write, moves, runs):
    """Prints the ratios of an evening."""
    with tempfile.TemporaryDirectory() as room:
        folder = pathlib.Path(room)
        write(folder)
        words = [PROGRAM, "--job", "boards", "--deal", folder / "evening.pbn", "--layouts", folder / "evening.lay", "--moves", moves]
        told = {workers: [timed([*words, "--workers", workers]) for _ in range(runs)] for workers in (1, 2, 4)}
        beside = min(side_by_side([*words, "--workers", 1], 4) for _ in range(runs))
        part = longest_part(folder, moves)
    if len({out for runs_of in told.values() for _, _, out in runs_of}) != 1:
        sys.exit(f"{name}: the runs print different bytes")
    wall = {workers: min(it[0] for it in runs_of) for workers, runs_of in told.items()}
    user = {workers: min(it[1] for it in runs_of) for workers, runs_of in told.items()}
    print("%-20s%7d%10.2f s%11.2f%10.2f%10.2f%12.2f%15.2f" % (
        name, moves, wall[1], wall[1] / wall[2], wall[1] / wall[4], 4 * wall[1] / beside, user[4] / user[1], part), flush=True)


def main():
    runs = int(sys.argv[1]) if len(sys.argv) > 1 else 3
    print(f"{os.cpu_count()} processors, {os.getloadavg()[0]:.1f} processes running or waiting before the run")
    print("evening               moves  one worker  2 workers 4 workers  four runs  user, 4 to 1  longest board")
    for moves in (4, 6):
        row("the chosen one", chosen, moves, runs)
    for name, played, moves, first in EVENINGS:
        row(name, by_chance(played, first), moves, runs)


if __name__ == "__main__":
    main()
