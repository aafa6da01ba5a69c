#!/usr/bin/env python3
"""Times alphamu against the same search in C++, in one run, and prints seconds, peak memory and ratios.

The baseline, search_baseline.cpp, is the plain search with neither cuts nor table, and so is alphamu's with --no-table and
--no-cuts. As `every` it goes through the same tree as alphamu; as `equals` it tries only one of equal cards of declarer's
side, as a quicker plain search would. Before the times are compared, both must have found the same front by the job `solve`,
and must name the same card with the same count.

The hands of 13 tricks are of two kinds: some are decided from the start, and some only by the last trick. In those, declarer
leads from thirteen spades, and double dummy plays out all thirteen tricks. Other hands of 13 tricks take the baseline's
double dummy too long. The hands of seven tricks are random endings with four moves.

Usage: bench/search.py [RUNS], the number of times that each is timed (default 5); the fastest counts. It builds the program
first if that is needed. It measures peak memory if GNU time is installed as /usr/bin/time."""
import os
import pathlib
import subprocess
import sys
import tempfile

from timing import processor_seconds

HERE = pathlib.Path(__file__).resolve().parent
BUILD = HERE.parent / "build"
PROGRAM = HERE.parent / "crates" / "alphamu" / "out" / "alphamu"
THEIRS = HERE / "build" / "search_baseline"
TIME = "/usr/bin/time"
RANKS = "23456789TJQKA"
SPADES, HEARTS, DIAMONDS, CLUBS = (list(range(13 * suit, 13 * suit + 13)) for suit in range(4))


class Draws:
    """Pseudo-random numbers, the same in each run."""

    def __init__(self, seed):
        self.state = seed

    def below(self, bound):
        self.state = (self.state * 6364136223846793005 + 1442695040888963407) % (1 << 64)
        return (self.state >> 33) % bound

    def shuffle(self, cards):
        for place in range(len(cards) - 1, 0, -1):
            other = self.below(place + 1)
            cards[place], cards[other] = cards[other], cards[place]


def hand(cards):
    suits = (sorted((card for card in cards if card // 13 == suit), reverse=True) for suit in range(4))
    return ".".join("".join(RANKS[card % 13] for card in suit) for suit in suits)


class Ending:
    """Declarer is South. `wests` are West's hands, one for each layout."""

    def __init__(self, name, north, south, wests, unseen, trump, need, lead, moves):
        self.name, self.moves, self.width = name, moves, len(wests)
        self.deal = (f'[Deal "N:{hand(north)} - {hand(south)} -"]\n[Declarer "S"]\n[Contract "1{trump}"]\n'
                     f'[EndNeed "{need}"]\n[EndLead "{lead}"]\n')
        easts = ([card for card in unseen if card not in west] for west in wests)
        self.layouts = "".join(f"N:{hand(north)} {hand(east)} {hand(south)} {hand(west)}\n" for east, west in zip(easts, wests))


def random_ending(tricks, layouts, moves, seed, need=None):
    """An ending whose cards, trumps and leader are drawn. Declarer needs half of the tricks, unless a need is given."""
    draws = Draws(seed)
    deck = list(range(52))
    draws.shuffle(deck)
    north, south, unseen = deck[:tricks], deck[tricks:2 * tricks], deck[2 * tricks:4 * tricks]
    trump, lead = ("NT", "S", "H", "D", "C")[draws.below(5)], "NS"[draws.below(2)]
    wests = []
    while len(wests) < layouts:
        draws.shuffle(unseen)
        west = sorted(unseen[:tricks])
        if west not in wests:
            wests.append(west)
    need = (tricks + 1) // 2 if need is None else need
    return Ending(f"{tricks} tricks, seed {seed}", north, south, wests, unseen, trump, need, lead, moves)


def top_tricks(layouts):
    """Declarer has thirteen spades and needs all tricks. West has the hearts and East the clubs, except one of each."""
    pairs = [(heart, club) for heart in HEARTS for club in CLUBS][:layouts]
    wests = [[card for card in HEARTS if card != heart] + [club] for heart, club in pairs]
    return Ending("13 top tricks", DIAMONDS, SPADES, wests, HEARTS + CLUBS, "NT", 13, "S", 1)


def decided(layouts):
    ending = random_ending(13, layouts, 1, 1, need=0)
    ending.name = "13 tricks, decided"
    return ending


def output(words):
    return processor_seconds(words)[1]


def lines_of(text, words):
    return [line for line in text.splitlines() if line.split(" ")[0] in words]


def peak(words, folder):
    """Peak memory in MiB. GNU time itself takes little, whereas getrusage would count the memory of this script."""
    if not os.access(TIME, os.X_OK):
        return float("nan")
    told = folder / "peak"
    output([TIME, "-f", "%M", "-o", told, *words])
    return int(told.read_text()) / 1024


def compared(ending, folder, runs):
    """The seconds and the peak memory of alphamu, and of the baseline as `every` and as `equals`."""
    deal, layouts = folder / "deal.pbn", folder / "layouts.lay"
    deal.write_text(ending.deal)
    layouts.write_text(ending.layouts)
    shared = ["--deal", deal, "--layouts", layouts, "--moves", ending.moves, "--no-table", "--no-cuts", "--nodes", 10 ** 18]
    words = [[PROGRAM, "--job", "card", *shared]] + [[THEIRS, kind, deal, layouts, ending.moves] for kind in ("every", "equals")]
    fronts = [lines_of(output(it), ["vector"]) for it in ([PROGRAM, "--job", "solve", *shared], *words[1:])]
    if fronts[0] != fronts[1] or fronts[0] != fronts[2]:
        sys.exit(f"{ending.name}: the fronts differ: {fronts}")
    best, cards = [], set()
    for it in words:
        timed = [processor_seconds(it) for _ in range(runs)]
        best.append(min(taken for taken, _ in timed))
        cards |= {lines_of(told, ["card"])[-1] for _, told in timed}
    if len(cards) != 1:
        sys.exit(f"{ending.name}: the cards differ: {cards}")
    return best, [peak(it, folder) for it in words], cards.pop(), len(fronts[0])


def main():
    runs = int(sys.argv[1]) if len(sys.argv) > 1 else 5
    THEIRS.parent.mkdir(exist_ok=True)
    subprocess.run(["g++", "-O2", "-march=x86-64-v2", "-o", THEIRS, HERE / "search_baseline.cpp"], check=True)
    subprocess.run([BUILD], check=True)
    endings = [decided(64), top_tricks(64)] + [random_ending(7, 4, 4, seed) for seed in (1, 2, 3, 9)]
    print("                                   seconds of the processor       peak memory in MiB         time, ours to C++")
    print("ending              layouts moves     ours    every   equals     ours    every   equals      every   equals  found")
    with tempfile.TemporaryDirectory() as folder:
        for ending in endings:
            best, peaks, card, vectors = compared(ending, pathlib.Path(folder), runs)
            print("%-20s%7d%6d " % (ending.name, ending.width, ending.moves), *("%8.3f" % it for it in best),
                  *("%8.1f" % it for it in peaks), "  ", *("%8.2f" % (best[0] / it) for it in best[1:]),
                  f" front of {vectors}, {card}", flush=True)
    print(f"again: bench/search.py {runs}")


if __name__ == "__main__":
    main()
