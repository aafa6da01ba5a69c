#!/usr/bin/env python3
"""duel.py [--deals N] [--played P] [--policies M,..] [--kinds K,..] [--layouts L] [--first SEED] [--jobs J]

Plays deals to the end by several policies side by side, against defenders who see all hands, and counts the contracts that each makes.

A policy plans M of declarer's cards at each of declarer's turns, over L layouts drawn for that turn; with M = 1 it is sampling. Of cards
with the same weight it takes the first in card order. All policies play the same deals, from the same moment, with the same draws: a draw
depends on the deal, on how many cards have been played, and on what declarer knows then: the cards seen, and the suits that a defender has
shown out of. The true layout is drawn no more often than others.

The defenders play a card that beats the contract with all hands open, the lowest in card order, spades first; if none does, the lowest
card that they may play.

The deals are made as those of examples/evening are, from SEED, SEED + 1 and so on (default 1), and played by its rules for P tricks (default
4). Kinds: `NT` and `suit` with 25 to 30 points on declarer's side, `slamNT` and `slam` with 31 or more. A deal counts if it can be made at that
moment with all hands open, and not with a trick more: so each trick given away is fatal. N deals of each kind (default 100).

A row has the contracts that each policy makes, and, against the first policy, how many it makes that the first doesn't and the other way
round, with the two-sided p of a sign test. The library must be built: ./build library, or set ALPHAMU_LIBRARY."""
import argparse
import concurrent.futures
import dataclasses
import math
import sys

from boards import make
from sampling import alphamu, cards_of, position_of

KINDS = {"NT": (False, range(25, 31)), "suit": (True, range(25, 31)), "slamNT": (False, range(31, 41)), "slam": (True, range(31, 41))}


class Layouts:
    """Draws what the defender on declarer's left may hold."""

    def __init__(self, deal, count):
        self.deal, self.count = deal, count

    def draw(self, at, sizes, voids, played):
        """`sizes` are the numbers of cards of the left and the right defender, and `voids` the suits that each has shown out of."""
        chance, cards = make.Chance(self.deal * 64 + played + 1), cards_of(at.unseen)
        fixed = [[card for card in cards if card // 13 in voids[1 - side]] for side in (0, 1)]
        free = [card for card in cards if card not in fixed[0] and card not in fixed[1]]
        found = set()
        for _ in range(20 * self.count):
            if len(found) < self.count:
                found.add(sum(1 << card for card in fixed[0] + chance.shuffled(free)[:sizes[0] - len(fixed[0])]))
        return sorted(found)


@dataclasses.dataclass
class Play:
    """A deal in play: what declarer sees, what Left really holds, the suits that each defender has shown out of, and the cards played."""

    at: object
    left: int
    voids: tuple[set, set]
    played: int

    def hand(self):
        """The hand whose turn it is."""
        return (self.at.declarer, self.left, self.at.dummy, self.at.unseen & ~self.left)[self.at.seat()]

    def after(self, card):
        seat, voids = self.at.seat(), tuple(map(set, self.voids))
        if seat % 2 and self.at.trick and self.at.trick[0] // 13 != card // 13:
            voids[seat // 2].add(self.at.trick[0] // 13)
        return Play(self.at.after(card), self.left & ~(1 << card), voids, self.played + 1)

    def sizes(self):
        """How many cards each defender holds."""
        return self.left.bit_count(), (self.at.unseen & ~self.left).bit_count()

    def is_over(self):
        return not (self.at.declarer | self.at.dummy | self.at.unseen)


def question(at, moves):
    return alphamu.Question(declarer=at.declarer, dummy=at.dummy, unseen=at.unseen, need=at.need, moves=moves, trump=at.trump,
                            leader=at.leader, trick=at.trick)


def makes(play):
    """Whether declarer's side makes with all hands open."""
    if play.at.need <= 0 or play.is_over():
        return play.at.need <= 0
    if play.at.seat() % 2:
        return all(makes(play.after(card)) for card in cards_of(play.at.legal(play.hand())))
    return question(play.at, 1).card([play.left]).weight > 0


def defended(play):
    """The defenders' card."""
    legal = cards_of(play.at.legal(play.hand()))
    return next((card for card in legal if not makes(play.after(card))), legal[0])


def chosen(play, moves, layouts):
    """The card of the policy with this many moves."""
    legal = cards_of(play.at.legal(play.hand()))
    if len(legal) == 1:
        return legal[0]
    return question(play.at, moves).card(layouts.draw(play.at, play.sizes(), play.voids, play.played)).card


def is_made(play, moves, layouts):
    """Whether the policy makes the contract."""
    while play.at.need > 0 and not play.is_over():
        play = play.after(defended(play) if play.at.seat() % 2 else chosen(play, moves, layouts))
    return play.at.need <= 0


def is_of_kind(table, kind):
    in_suit, points = KINDS[kind]
    both = sum(make.points(table.dealt[(table.declarer + it) % 4]) for it in (0, 2))
    return (table.trump in make.SUITS) == in_suit and both in points


def deal(seed, kind, tricks):
    """The deal of a seed after this many tricks, at the level that declarer just makes; nothing, if it is of another kind or is decided."""
    if not is_of_kind(make.Table(make.Chance(seed)), kind):
        return None
    table = make.board(make.Chance(seed), tricks)
    left, right = table.defenders()
    voids = tuple({make.SUITS.index(suit) for suit in table.shown_out(seat)} for seat in (left, right))
    held = sum(1 << alphamu.card_number(card) for card in table.hands[left])
    played = sum(len(trick) for _, trick in table.tricks)
    found = None
    for level in range(1, 8):
        at = position_of(table, level)
        play = Play(at, held, voids, played)
        if at.need > 0 and makes(play):
            found = play
    return found


def results(seed, kind, given):
    """What each policy makes of a deal, or nothing if it doesn't count."""
    play = deal(seed, kind, given.played)
    return play and [is_made(play, moves, Layouts(seed, given.layouts)) for moves in given.policies]


def sign_test(more, fewer):
    """The two-sided p of this many against that many by chance."""
    tosses = more + fewer
    tail = sum(math.comb(tosses, it) for it in range(min(more, fewer) + 1)) / 2**tosses
    return min(1, 2 * tail)


def row(kind, given, pool):
    found, seed = [], given.first
    while len(found) < given.deals:
        answers = pool.map(results, range(seed, seed + 200), [kind] * 200, [given] * 200)
        found += [it for it in answers if it is not None]
        seed += 200
    tell(kind, found[:given.deals])
    return found[:given.deals]


def tell(name, found):
    cells = [name, len(found), sum(it[0] for it in found)]
    for at in range(1, len(found[0])):
        more, fewer = (sum(it[at] == made and it[0] != made for it in found) for made in (True, False))
        cells.append(f"{sum(it[at] for it in found)} (+{more} -{fewer}, p {sign_test(more, fewer):.2g})")
    print("| " + " | ".join(map(str, cells)) + " |", flush=True)


def numbers(text):
    return [int(it) for it in text.split(",")]


def main():
    parser = argparse.ArgumentParser(description=__doc__, formatter_class=argparse.RawDescriptionHelpFormatter)
    parser.add_argument("--deals", type=int, default=100)
    parser.add_argument("--played", type=int, default=4)
    parser.add_argument("--policies", type=numbers, default=[1, 2, 4, 6])
    parser.add_argument("--kinds", default=",".join(KINDS))
    parser.add_argument("--layouts", type=int, default=20)
    parser.add_argument("--first", type=int, default=1)
    parser.add_argument("--jobs", type=int, default=1)
    given = parser.parse_args()
    print("| deals | number | " + " | ".join(f"{it} moves" if it > 1 else "sampling" for it in given.policies) + " |")
    print("|" + "---|" * (2 + len(given.policies)))
    with concurrent.futures.ProcessPoolExecutor(given.jobs) as pool:
        rows = [row(kind, given, pool) for kind in given.kinds.split(",")]
    tell("all", sum(rows, []))
    print(f"again: bench/duel.py {' '.join(sys.argv[1:])}")


if __name__ == "__main__":
    main()
