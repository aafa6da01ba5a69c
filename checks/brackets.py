#!/usr/bin/env python3
"""brackets.py [--small N] [--larger N] [--first SEED] [--jobs N] [--seconds N] [PROGRAM]

Asks ./study for every card (`cards`) of endings that are drawn, and compares.

N small endings (500, if you don't say) of two to four tricks with two to four layouts: the text must be that of a second reading of the
definitions (cards.py, playing.py, assured.py), which goes through all lines of play and all choices of a layout where moves are used up.

N larger endings (300) of four to seven tricks with four to eight layouts, asked with 1, 2, 3 moves and so on until each card is final:
with every number of moves what a card wins in the end must lie between its `least` and its `most`; `least` never falls and `most` never
rises; and PROGRAM, ./alphamu if you name none, must find the same card and weight by `card` with all moves. An ending of which some
search takes more than NODES nodes or SECONDS seconds counts as far as it went; the last line says how many did.

Half of the endings have layouts with weights. Each ending is made from its seed alone, so `--first N --small 1 --larger 0` repeats one.
The exit status is 0 only if nothing differs."""
import argparse
import os
import random
import re
import subprocess
import sys
import tempfile
from concurrent.futures import ProcessPoolExecutor

sys.dont_write_bytecode = True
import reading
from cards import cards_text
from cases import PROGRAM, STUDY, is_ready

ALL_MOVES, NODES, DONE = 26, 2000000, 0
ROW = re.compile(rb"^card (..) most (\d+) least (\d+) sampled \d+ final (yes|no) ", re.M)


def line_of(hands, weight):
    return b"%sN:%s\n" % (b"%d " % weight if weight else b"", b" ".join(reading.hand_text(hand) for hand in hands))


def ending(seed, tricks, layouts):
    """A deal file and its layout file: cards, trumps, need, leader and weights are drawn."""
    draw = random.Random(f"{seed} {tricks}")
    deck = draw.sample(range(52), 4 * tricks)
    north, south, unseen = deck[:tricks], deck[tricks:2 * tricks], deck[2 * tricks:]
    easts = {tuple(sorted(draw.sample(unseen, tricks))) for _ in range(layouts)}
    weighted = draw.random() < 0.5
    lines = [line_of([north, east, south, set(unseen) - set(east)], draw.randint(1, 9) if weighted else 0) for east in sorted(easts)]
    tags = [("Deal", b"N:%s - %s -" % (reading.hand_text(north), reading.hand_text(south))), ("Declarer", b"S"),
            ("Contract", b"1" + draw.choice([b"NT", b"S", b"H", b"D", b"C"])), ("EndNeed", b"%d" % draw.randint(1, tricks)),
            ("EndLead", draw.choice([b"N", b"S"]))]
    return b"".join(b'[%s "%s"]\n' % (name.encode(), value) for name, value in tags), b"".join(lines)


class Files:
    """The two files of an ending, in a folder of their own."""

    def __init__(self, deal, layouts):
        self.room = tempfile.TemporaryDirectory()
        for name, content in (("deal", deal), ("layouts", layouts)):
            with open(os.path.join(self.room.name, name), "wb") as file:
                file.write(content)

    def ask(self, program, job, moves, seconds):
        """What is printed; nothing if it takes too many nodes or too long."""
        words = [program, "--job", job, "--deal", "deal", "--layouts", "layouts", "--moves", str(moves), "--nodes", str(NODES)]
        try:
            ran = subprocess.run(words, cwd=self.room.name, stdin=subprocess.DEVNULL, capture_output=True, timeout=seconds)
        except subprocess.TimeoutExpired:
            return b""
        return ran.stdout if ran.returncode == DONE else b""


def judge_small(_, seed, seconds):
    """What is wrong with a small ending, and whether it was told in full."""
    draw = random.Random(seed)
    tricks, moves = draw.choice([2, 3, 3, 4]), draw.randint(1, 4)
    deal, layouts = ending(seed, tricks, draw.randint(2, 4))
    board = reading.board_of(reading.games_read(deal)[0])
    kept = reading.layouts_kept(layouts, board)
    states = tuple(reading.state_of(board, layout) for layout in kept.layouts)
    wanted = cards_text(states, kept.weights, moves, board.trump)
    found = Files(deal, layouts).ask(STUDY, "cards", moves, seconds)
    return [f"small ending {seed}: the cards differ"] if found and found != wanted else [], bool(found)


def tables(files, seconds):
    """The rows with 1, 2, 3 moves and so on, until each is final or no more can be told; and whether each is."""
    told = []
    for moves in range(1, ALL_MOVES + 1):
        text = files.ask(STUDY, "cards", moves, seconds)
        if not text:
            return told, False
        told.append({card: (int(most), int(least)) for card, most, least, _ in ROW.findall(text)})
        if all(most == least for most, least in told[-1].values()):
            return told, True
    return told, False


def wrong_rows(told):
    """The cards whose bounds don't hold, or move the wrong way."""
    pairs = zip(told, told[1:] + told[-1:])
    return sorted({card.decode() for now, later in pairs for card, (most, least) in now.items()
                   if not least <= later[card][1] <= told[-1][card][0] <= later[card][0] <= most})


def judge_larger(program, seed, seconds):
    """What is wrong with a larger ending, and whether all of its cards became final."""
    draw = random.Random(seed)
    files = Files(*ending(seed, draw.choice([4, 5, 5, 6, 7]), draw.randint(4, 8)))
    told, is_final = tables(files, seconds)
    if not is_final:
        return [], False
    wrong = [f"larger ending {seed}: {card} isn't between its bounds" for card in wrong_rows(told)]
    best = max(most for most, _ in told[-1].values())
    card = next(card for card, (most, _) in told[-1].items() if most == best)
    named = files.ask(program, "card", ALL_MOVES, seconds)
    if named and not re.search(rb"^card %s (count|weight) %d of " % (card, best), named, re.M):
        wrong.append(f"larger ending {seed}: card with all moves says {named}")
    return wrong, True


def main():
    parser = argparse.ArgumentParser(description="Puts the cards of drawn endings side by side.", allow_abbrev=False)
    parser.add_argument("program", nargs="?", default=PROGRAM)
    parser.add_argument("--small", type=int, default=500)
    parser.add_argument("--larger", type=int, default=300)
    parser.add_argument("--first", type=int, default=1)
    parser.add_argument("--jobs", type=int, default=len(os.sched_getaffinity(0)))
    parser.add_argument("--seconds", type=float, default=60)
    given = parser.parse_args()
    if not is_ready(given.program, "brackets"):
        return 1
    program, status = os.path.abspath(given.program), 0
    with ProcessPoolExecutor(given.jobs) as pool:
        for name, judged, count in (("small", judge_small, given.small), ("larger", judge_larger, given.larger)):
            seeds = range(given.first, given.first + count)
            told = list(pool.map(judged, [program] * count, seeds, [given.seconds] * count))
            wrong = [line for lines, _ in told for line in lines]
            print("\n".join(wrong + [f"brackets: {count} {name} endings, {sum(whole for _, whole in told)} to the end, {len(wrong)} wrong"]))
            status = 1 if wrong else status
    return status


if __name__ == "__main__":
    sys.exit(main())
