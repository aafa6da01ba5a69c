#!/usr/bin/env python3
"""Writes a suit combination as an ending: NAME.pbn, the deal file, and NAME.lay, a layout for each division of the missing cards.

Usage: examples/suits/make.py DUMMY SOUTH NAME [--entries N] [--worst N], for example make.py K10x AQ9xx /tmp/suit

DUMMY and SOUTH are the spades of the two hands, with 10 or T for the ten and x for a small card. The small cards are the lowest of the
suit; every card that isn't named belongs to the defenders. Play is at no trump, South leads, and every trick is needed.

Each hand has entries: --entries top cards (default 1) of a suit in which the other hand has small cards, hearts in dummy and diamonds in
South. The defenders' other cards don't matter, so the contract depends on the spades alone. If the defenders have n spades and West has k
of them, the layout weighs the number of ways to fill up West's thirteen cards from the other 26 - n, divided by what all weights have in
common. --worst N leaves out the breaks in which one defender has more than N spades."""
import argparse
import itertools
import math
import pathlib

RANKS = "AKQJT98765432"


def in_order(ranks):
    return "".join(sorted(ranks, key=RANKS.index))


def spades(dummy, south):
    """The spades of dummy, of South and of the defenders."""
    dummy, south = (hand.upper().replace("10", "T") for hand in (dummy, south))
    named = set(dummy + south) - {"X"}
    small = iter([rank for rank in reversed(RANKS) if rank not in named])
    ours = ["".join(next(small) if rank == "X" else rank for rank in hand) for hand in (dummy, south)]
    return *map(in_order, ours), "".join(rank for rank in RANKS if rank not in "".join(ours))


def with_entries(dummy, south, entries):
    """Both hands with their side suits, each as a list of its four suits, and how many tricks there are."""
    tricks = max(len(dummy), len(south)) + 2 * entries
    tops, small = RANKS[:entries], RANKS[::-1]
    spare = [tricks - len(hand) - entries for hand in (dummy, south)]
    return [dummy, tops, in_order(small[:spare[0]]), ""], [south, in_order(small[:spare[1]]), tops, ""], tricks


def side_cards(dummy, south, count):
    """The top `count` hearts and diamonds that neither hand has, in turn."""
    suits = [[(suit, rank) for rank in RANKS if rank not in dummy[suit] + south[suit]] for suit in (1, 2)]
    return [card for pair in zip(*suits) for card in pair][:count]


def hand(spades, cards):
    return [spades] + [in_order(rank for suit, rank in cards if suit == place) for place in (1, 2, 3)]


def written(*hands):
    return "N:" + " ".join(it if it == "-" else ".".join(it) for it in hands)


def layouts(dummy, south, missing, tricks, worst):
    """Each division of the missing spades with its weight, as lines of a layout file."""
    side, found = side_cards(dummy, south, 2 * tricks - len(missing)), []
    for count in range(len(missing) + 1):
        if max(count, len(missing) - count) <= worst:
            for west in itertools.combinations(missing, count):
                east = [rank for rank in missing if rank not in west]
                left, right = hand("".join(west), side[:tricks - count]), hand("".join(east), side[tricks - count:])
                found.append((math.comb(26 - len(missing), 13 - count), written(dummy, right, south, left)))
    common = math.gcd(*(weight for weight, _ in found))
    return [f"{weight // common} {line}" for weight, line in found]


def write(dummy, south, name, entries=1, worst=13):
    dummy, south, missing = spades(dummy, south)
    dummy, south, tricks = with_entries(dummy, south, entries)
    tags = [("Deal", written(dummy, "-", south, "-")), ("Declarer", "S"), ("Contract", "1NT"), ("EndNeed", tricks), ("EndLead", "S")]
    pathlib.Path(name + ".pbn").write_text("".join(f'[{tag} "{value}"]\n' for tag, value in tags))
    pathlib.Path(name + ".lay").write_text("".join(line + "\n" for line in layouts(dummy, south, missing, tricks, worst)))


def main():
    words = argparse.ArgumentParser(description=__doc__, formatter_class=argparse.RawDescriptionHelpFormatter)
    for word in ("dummy", "south", "name"):
        words.add_argument(word)
    words.add_argument("--entries", type=int, default=1)
    words.add_argument("--worst", type=int, default=13)
    write(**vars(words.parse_args()))


if __name__ == "__main__":
    main()
