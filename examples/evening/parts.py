#!/usr/bin/env python3
"""Cuts an evening into parts, each in a folder of its own, and gathers what the job `boards` found in them.

Usage: examples/evening/parts.py cut FOLDER SIZE
       examples/evening/parts.py gather FOLDER

`cut` makes FOLDER/part.1, part.2 and so on from FOLDER/evening.pbn. Each has an evening.pbn of SIZE games, or of those that are left,
and their layout files evening.lay.1 and so on. The lines of the other games are empty in it, so that a refusal names the line of the
whole file. `gather` prints what one run over the whole evening prints, from the files evening.boards in the parts, and names the parts
that have none."""
import pathlib
import re
import shutil
import sys

HEAD, END = "alphamu boards 1\n", "end boards\n"


def games_of(text):
    """The first and the last line of each game, counted from 0. Empty lines separate games, and a line that begins with % is a comment."""
    games, is_open = [], False
    for number, line in enumerate(text.split("\n")):
        if not line.strip():
            is_open = False
        elif is_open:
            games[-1][1] = number
        elif not line.startswith("%"):
            games.append([number, number])
            is_open = True
    return games


def cut(folder, size):
    text = (folder / "evening.pbn").read_text()
    games, lines = games_of(text), text.split("\n")
    for first in range(0, len(games), size):
        part, chosen = folder / ("part.%d" % (first // size + 1)), games[first:first + size]
        part.mkdir(exist_ok=True)
        start, end = chosen[0][0], chosen[-1][1]
        (part / "evening.pbn").write_text("\n" * start + "\n".join(lines[start:end + 1]) + "\n")
        for place in range(len(chosen)):
            shutil.copy(folder / ("evening.lay.%d" % (first + place + 1)), part / ("evening.lay.%d" % (place + 1)))


def gather(folder):
    parts = sorted(folder.glob("part.*"), key=lambda part: int(part.suffix[1:]))
    lacking = [part.name for part in parts if not (part / "evening.boards").exists()]
    if lacking or not parts:
        sys.exit("not there: %s" % (" ".join(lacking) or "parts"))
    texts = [(part / "evening.boards").read_text().removeprefix(HEAD).removesuffix(END) for part in parts]
    answers = re.split(r"(?m)^game \d+\n", "".join(texts))[1:]
    sys.stdout.write(HEAD + "".join("game %d\n%s" % it for it in enumerate(answers, 1)) + END)


def main():
    match sys.argv[1:]:
        case ["cut", folder, size] if size.isdigit() and int(size):
            cut(pathlib.Path(folder), int(size))
        case ["gather", folder]:
            gather(pathlib.Path(folder))
        case _:
            sys.exit(__doc__)


if __name__ == "__main__":
    main()
