#!/usr/bin/env python3
"""fronts.py [--jobs N] [PROGRAM]

Asks `solve` for the front of each ending in checks/fronts.txt, twice: with all that makes it fast, and by one worker without table and
cuts. The fronts there are from outside: those of the first part were worked out by hand, and those of the second by a program that goes
through all strategies and judges each against every defence. Fails if a front differs, or if there are fewer than LEAST endings.

A line has, between strokes: declarer's hand, dummy's and the cards of the two defenders; the seat to lead, clockwise from declarer, who
is 0; the need; trumps, or N; Left's hand in each layout before the trick; the cards played to the trick since; the moves; and the front.
If you name no program it is that of cases.py. The exit status is 0 only if all agree.
"""
import os
import pathlib
import re
import subprocess
import sys
import tempfile
from concurrent.futures import ThreadPoolExecutor

sys.dont_write_bytecode = True
from cases import is_ready, parser_of

ENDINGS = pathlib.Path(__file__).resolve().with_name("fronts.txt")
LEAST = 71
WAYS = ([], ["--workers", "1", "--no-table", "--no-cuts"])
SUITS, RANKS = "SHDC", "AKQJT98765432"


def cards_of(text):
    return set(re.findall("..", text))


def hand(cards):
    return ".".join("".join(rank for rank in RANKS if suit + rank in cards) for suit in SUITS)


def files_of(line):
    """The deal file and the layout file of an ending, with South as declarer."""
    declarer, dummy, theirs, leader, need, trumps, lefts, played = line.split("/")[:8]
    north, south, unseen = (cards_of(text) for text in (dummy, declarer, theirs))
    leader = "SWNE"[int(leader)]
    strain = "NT" if trumps == "N" else trumps
    deal = [f'[Deal "N:{hand(north)} - {hand(south)} -"]', '[Declarer "S"]', f'[Contract "1{strain}"]', f'[EndNeed "{need}"]',
            f'[EndLead "{leader}"]']
    if played:
        cards = re.findall("..", played)
        deal += [f'[Play "{leader}"]', " ".join(cards + ["-"] * (4 - len(cards))), "*"]
    layouts = [f"N:{hand(north)} {hand(unseen - cards_of(left))} {hand(south)} {hand(cards_of(left))}" for left in lefts.split(" ")]
    return "\n".join(deal) + "\n", "\n".join(layouts) + "\n"


def faults(program, line):
    """What is wrong with the program's fronts of an ending, one line each."""
    moves, front = line.split("/")[8:]
    found = []
    with tempfile.TemporaryDirectory() as room:
        for name, text in zip(("deal", "layouts"), files_of(line)):
            pathlib.Path(room, name).write_text(text)
        for way in WAYS:
            words = [program, "--job", "solve", "--deal", f"{room}/deal", "--layouts", f"{room}/layouts", "--moves", moves, *way]
            ran = subprocess.run(words, capture_output=True, text=True)
            vectors = re.findall("^vector ([01]+) ", ran.stdout, re.M)
            if ran.returncode or sorted(vectors) != sorted(front.split(" ")):
                found.append(f"{line}: status {ran.returncode} {ran.stderr.strip()}, front {' '.join(vectors)} {' '.join(way)}")
    return found


def main():
    given = parser_of("Compares fronts of small endings with those from outside.").parse_args()
    if not is_ready(given.program, "fronts"):
        return 1
    program = os.path.abspath(given.program)
    lines = [line for line in ENDINGS.read_text().split("\n") if line and not line.startswith("#")]
    with ThreadPoolExecutor(given.jobs) as workers:
        wrong = [fault for found in workers.map(lambda line: faults(program, line), lines) for fault in found]
    if len(lines) < LEAST:
        wrong.append(f"fronts.txt has {len(lines)} endings, and {LEAST} at least are wanted")
    print("\n".join([*wrong, f"fronts: {len(lines)} endings, {len(wrong)} differences"]))
    return 1 if wrong else 0


if __name__ == "__main__":
    sys.exit(main())
