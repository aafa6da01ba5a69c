#!/usr/bin/env python3
"""Prints what the job `boards` found, a line for each board: its contract, the card to play, in how many of the kept layouts (or
with what weight) a strategy that begins with that card makes the contract, and how many trade-offs there are.

Usage: examples/evening/table.py DEAL BOARDS, the deal file and what `boards` wrote."""
import pathlib
import re
import sys

ROW = "%5s  %-9s %-4s  %-8s  %10s"


def tags_of(game):
    return dict(re.findall(r'(?m)^\[(\w+) "(.*)"\]', game))


def value(lines, word):
    """The rest of the line that begins with the word. Lines of plans don't count."""
    return next(line[len(word) + 1:] for line in lines if line.startswith(word + " "))


def row(game, answer):
    """The row of a board."""
    tags, lines = tags_of(game), answer.splitlines()
    if lines[0].startswith("refused "):
        return "%5s  %s" % (tags["Board"], lines[0])
    card, word, wins = lines[-2].split(" ")[1:]
    of = len(value(lines, "kept").split(" ")) if word == "count" else sum(map(int, value(lines, "weights").split(" ")))
    return ROW % (tags["Board"], "%s by %s" % (tags["Contract"], tags["Declarer"]), card, "%s of %d" % (wins, of), value(lines, "front"))


def main():
    if len(sys.argv) != 3:
        sys.exit(__doc__)
    deal, boards = (pathlib.Path(name).read_text() for name in sys.argv[1:])
    answers = re.split(r"(?m)^game \d+\n", boards.removesuffix("end boards\n"))[1:]
    print(ROW % ("Board", "Contract", "Card", "Makes", "Trade-offs"))
    for game, answer in zip(deal.split("\n\n"), answers, strict=True):
        print(row(game, answer))


if __name__ == "__main__":
    main()
