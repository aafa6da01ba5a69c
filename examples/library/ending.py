#!/usr/bin/env python3
"""The front page's suit combination: K 10 2 in dummy opposite A Q 9 4 3, with an entry to each hand.

    PYTHONPATH=bindings/python python3 examples/library/ending.py                 by bits: each card's worth, the card to play, a strategy
    PYTHONPATH=bindings/python python3 examples/library/ending.py DEAL LAYOUTS    by text: the card to play, from two files
"""
import dataclasses
import itertools
import pathlib
import sys

import alphamu

# In how many ways the other 21 cards of the defenders fill up West's hand, by the number of his spades.
WAYS = [45, 65, 78, 78, 65, 45]
MISSING = ["S5", "S6", "S7", "S8", "SJ"]
# The defenders' other cards, in the order in which they fill up West's seven.
OTHERS = ["HK", "DK", "HQ", "DQ", "HJ", "DJ", "HT", "DT", "H9"]


def layouts():
    """What West has in each layout, with its weight."""
    for count, ways in enumerate(WAYS):
        for spades in itertools.combinations(MISSING, count):
            yield sum(1 << alphamu.card_number(it) for it in [*spades, *OTHERS[:7 - count]]), ways


def by_bits():
    question = alphamu.Question(declarer=alphamu.cards("AQ943.2.A."), dummy=alphamu.cards("KT2.A.432."),
                                unseen=alphamu.cards("J8765.KQJT9.KQJT."), need=7, moves=26)
    lefts, weights = zip(*layouts())
    for it in question.worths(lefts, weights):
        print(f"{alphamu.card_name(it.card)} wins {it.weight} of {sum(weights)}; a simulation believes in {it.double_dummy}")
    print(f"play {alphamu.card_name(question.card(lefts, weights).card)}")
    begin_strategy(dataclasses.replace(question, moves=6).strategy(lefts, weights))


def begin_strategy(strategy):
    """Prints how a strategy begins: its first card, and the card that answers each card of the next player."""
    first = strategy.next_card()
    place = strategy.after(0, first)
    print(f"a strategy: play {alphamu.card_name(first)}")
    for reply in strategy.nodes[place].replies:
        print(f"on {alphamu.card_name(strategy.nodes[reply].card)} play {alphamu.card_name(strategy.next_card(reply))}")


def by_text(deal, layouts):
    print(alphamu.card(pathlib.Path(deal).read_bytes(), pathlib.Path(layouts).read_bytes(), moves=26), end="")


if __name__ == "__main__":
    try:
        by_text(*sys.argv[1:]) if len(sys.argv) == 3 else by_bits()
    except alphamu.AlphamuError as refusal:
        sys.exit(str(refusal))
