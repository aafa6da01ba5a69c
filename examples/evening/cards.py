#!/usr/bin/env python3
"""Asks about each board of an evening: which card a simulation names, and which card is best if every card is planned.

Usage: examples/evening/cards.py FOLDER [BOARD ..], with evening.pbn and evening.lay.1, evening.lay.2 and so on in FOLDER, as make.py writes
them. Without numbers it takes all boards.

It asks the jobs `fusion` and `card --moves 26`, with nodes enough, about one game after another, several at a time. It prints a line for
each board: the card and the count of each job. A star marks the boards on which they name different cards."""
import os
import pathlib
import re
import subprocess
import sys
import tempfile
from concurrent.futures import ThreadPoolExecutor

from table import tags_of

PROGRAM = pathlib.Path(__file__).resolve().parent.parent.parent / "alphamu"
ROW = "%5s  %-9s %-14s  %-14s %s"


def ask(job, deal, layouts, *more):
    words = [PROGRAM, "--job", job, "--deal", deal, "--layouts", layouts, *more]
    done = subprocess.run(words, capture_output=True, text=True)
    return done.stdout, done.stderr.removeprefix("alphamu: ").strip()


def answers(deal, layouts):
    """What each job says of a board, as a card and its count, or one line that says why not."""
    printed, why = ask("card", deal, layouts, "--moves", "26", "--nodes", str(2 ** 40))
    if not printed:
        return ["refused", why]
    best, count, of = re.search(r"card (\S+) (?:count|weight) (\d+) of (\d+)", printed).groups()
    sampled = re.findall(r"^card (\S+) vector \S+ (?:count|weight) (\d+)$", ask("fusion", deal, layouts)[0], re.M)
    card, believed = max(sampled, key=lambda it: int(it[1]))
    return [f"{card} {believed} of {of}", f"{best} {count} of {of}", "*" if card != best else ""]


def row(game, layouts):
    tags = tags_of(game)
    with tempfile.NamedTemporaryFile("w", suffix=".pbn") as deal:
        deal.write(game.strip("\n") + "\n")
        deal.flush()
        found = answers(deal.name, layouts)
    if found[0] == "refused":
        return "%5s  %s" % (tags["Board"], " ".join(found))
    return (ROW % (tags["Board"], "%s by %s" % (tags["Contract"], tags["Declarer"]), *found)).rstrip()


def main():
    if len(sys.argv) < 2:
        sys.exit(__doc__)
    folder = pathlib.Path(sys.argv[1])
    games = (folder / "evening.pbn").read_text().split("\n\n")
    numbers = [int(word) for word in sys.argv[2:]] or range(1, len(games) + 1)
    print((ROW % ("Board", "Contract", "A simulation", "True", "")).rstrip())
    with ThreadPoolExecutor(os.cpu_count()) as workers:
        for line in workers.map(row, (games[it - 1] for it in numbers), (folder / f"evening.lay.{it}" for it in numbers)):
            print(line, flush=True)


if __name__ == "__main__":
    main()
