#!/usr/bin/env python3
"""evening.py [--jobs N] [--seconds N]

Reviews the evening of examples/evening with ./study, from trick FIRST on with MOVES moves, with as many nodes as the program takes by
itself and with FEW: each game by itself, and all games in one run, for each number of workers. One game is given the layouts of another.
The text of all games must have that of each game, or the line that refuses it, in order, and then the sums; and CSV and JSON must have its
values, byte for byte as docs/FORMS.md says. Words with a `--games` that can't be right must be refused. The
exit status is 0 only if nothing differs, and if with nodes enough at least LEAST games were reviewed and none was refused for its
nodes, and with few nodes at least one was.

The program must be there and current: ./build makes it."""
import argparse
import json
import os
import re
import subprocess
import sys
import tempfile
from concurrent.futures import ThreadPoolExecutor

sys.dont_write_bytecode = True
import review
from cases import STUDY, TOP, misunderstood

MAKE = os.path.join(TOP, "examples", "evening", "make.py")
FIRST, MOVES, FEW, WORKERS, LEAST = 5, 2, 30, (1, 4), 20
# The game that is given the layouts of another.
MIXED_UP = 3


def ask(given, room, deal, layouts, *more):
    """What ./study writes for a deal file and its layouts, with its line and its status."""
    words = ["--job", "review", "--deal", deal, "--layouts", layouts, "--moves", str(MOVES), "--from", str(FIRST), *more]
    done = subprocess.run([STUDY, *words], cwd=room, capture_output=True, timeout=given.seconds, check=False)
    return done.stdout, done.stderr, done.returncode


def judge_words(given, room):
    """Words that ask for all games in a way that can't be right."""
    return [f"not refused as it must be, with --games and {more}" for more in ("--games", "--games=1", "--game")
            if ask(given, room, "evening.pbn", "evening.lay", "--games", more) != misunderstood(b"word 12 isn't understood: %s" % more.encode())]


def cut(whole):
    """Each game of a deal file as a file of its own, with empty lines before it, so that its lines keep their numbers."""
    lines = 0
    for game in whole.rstrip(b"\n").split(b"\n\n"):
        yield b"\n" * lines + game + b"\n"
        lines += game.count(b"\n") + 2


def told(given, room, number, nodes):
    """What all games must say of one, by what `review` says of it alone; and the numbers of its last line."""
    text, line, status = ask(given, room, f"{number}.pbn", f"evening.lay.{number}", *nodes)
    if status:
        return b"refused " + line.removeprefix(b"alphamu: "), 0, 0, 0, 0, 0
    lines = text.splitlines(True)[2:]
    sums = re.fullmatch(rb"decisions (\d+) costly (\d+) to (\d+) greatest (\d+) to (\d+)\n", lines[-1])
    return b"".join(lines), *map(int, sums.groups())


def csv_of(texts):
    """The CSV with the values that the text has of each game."""
    rows = [[b"game", *review.FIELDS, b"refused"]]
    for number, text in enumerate(texts, 1):
        said = text.removeprefix(b"refused ").rstrip(b"\n")
        told_rows = [[*row, b"%d" % MOVES, b""] for row in review.LINE.findall(text)]
        rows += [[b"%d" % number, *row] for row in told_rows or [[*[b""] * len(review.FIELDS), said]]]
    return b"".join(b",".join(row) + b"\n" for row in rows)


def json_of(texts, sums):
    """The JSON that has them."""
    games = []
    for number, text in enumerate(texts, 1):
        if text.startswith(b"refused "):
            games.append({"game": number, "refused": text.removeprefix(b"refused ").rstrip(b"\n").decode()})
        else:
            games.append({"game": number, "review": json.loads(review.json_of(text)) | {"moves": MOVES}})
    said = {"games": games, "moves": MOVES, **dict(zip(review.SUMS, sums))}
    return json.dumps(said, sort_keys=True, separators=(",", ":")).encode() + b"\n"


def judge(given, room, games, nodes):
    """What is wrong with the reviews of all games, and what the text said of each."""
    with ThreadPoolExecutor(given.jobs) as pool:
        each = list(pool.map(lambda number: told(given, room, number, nodes), range(1, games + 1)))
    texts, decisions, costly, costly_up_to, greatest, greatest_up_to = zip(*each)
    sums = sum(costly), sum(costly_up_to), max(greatest), max(greatest_up_to)
    wanted = b"alphamu reviews 1\nmoves %d\n" % MOVES
    wanted += b"".join(b"game %d\n%s" % (number, text) for number, text in enumerate(texts, 1))
    wanted += b"games %d decisions %d costly %d to %d greatest %d to %d\n" % (games, sum(decisions), *sums)
    wrong = []
    for workers in WORKERS:
        found = ask(given, room, "evening.pbn", "evening.lay", "--games", "--workers", str(workers), *nodes)
        if found != (wanted, b"", 0):
            wrong.append(f"{workers} workers, {nodes or 'nodes enough'}: {found}, and not {wanted}")
    for form, content in ("csv", csv_of(texts)), ("json", json_of(texts, sums)):
        if ask(given, room, "evening.pbn", "evening.lay", "--games", f"--form={form}", *nodes) != (content, b"", 0):
            wrong.append(f"another {form}, {nodes or 'nodes enough'}")
    return wrong, texts


def main():
    parser = argparse.ArgumentParser(description="Reviews an evening at once and game by game.", allow_abbrev=False)
    parser.add_argument("--jobs", type=int, default=len(os.sched_getaffinity(0)))
    parser.add_argument("--seconds", type=float, default=300)
    given = parser.parse_args()
    with tempfile.TemporaryDirectory() as room:
        subprocess.run([MAKE, room], check=True)
        with open(os.path.join(room, "evening.pbn"), "rb") as file:
            games = list(cut(file.read()))
        for number, game in enumerate(games, 1):
            with open(os.path.join(room, f"{number}.pbn"), "wb") as file:
                file.write(game)
        os.replace(os.path.join(room, f"evening.lay.{MIXED_UP + 1}"), os.path.join(room, f"evening.lay.{MIXED_UP}"))
        os.link(os.path.join(room, f"evening.lay.{MIXED_UP}"), os.path.join(room, f"evening.lay.{MIXED_UP + 1}"))
        wrong, texts = judge(given, room, len(games), ())
        more, few = judge(given, room, len(games), ("--nodes", str(FEW)))
        wrong += more + judge_words(given, room)
    for line in wrong:
        print(line)
    reviewed = sum(not text.startswith(b"refused ") for text in texts)
    spent, early = (sum(text.startswith(b"refused nodes spent") for text in it) for it in (few, texts))
    print(f"evening: {reviewed} of {len(games)} games reviewed, {spent} with too few nodes and {early} with enough, {len(wrong)} wrong")
    return 0 if reviewed >= LEAST and spent and not early and not wrong else 1


if __name__ == "__main__":
    sys.exit(main())
