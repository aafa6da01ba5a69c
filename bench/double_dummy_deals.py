"""Random deals for bench/double_dummy.py. Declarer leads and sits South; Left sits West."""
import itertools
from dataclasses import dataclass

from search import Draws, Ending

NO_TRUMP = 4
TRUMPS = ("S", "H", "D", "C", "NT")
WORKLOADS_SEED = 20_191_118


@dataclass
class Deal:
    """Hands are lists of cards. `lefts` are Left's hands, one for each layout."""
    declarer: list
    dummy: list
    unseen: list
    lefts: list
    trump: int

    def layouts(self):
        """Left's and Right's hand in each layout."""
        return [(left, [card for card in self.unseen if card not in left]) for left in self.lefts]

    def ending(self, need):
        """The texts of the deal and of its layouts, as alphamu reads them."""
        return Ending("", self.dummy, self.declarer, self.lefts, self.unseen, TRUMPS[self.trump], need, "S", 1)


def drawn_from(draws, cards, size):
    """A random hand of `size` of these cards, which are taken out of the set."""
    hand = []
    while len(hand) < size:
        card = draws.below(52)
        if card in cards:
            cards.remove(card)
            hand.append(card)
    return sorted(hand)


def four_hands(draws, tricks):
    """Declarer's hand, Left's, dummy's and Right's."""
    pack = set(range(52))
    return [drawn_from(draws, pack, tricks) for _ in range(4)]


def different_lefts(draws, left, unseen, layouts):
    """Left's hands, the given one first, and no two the same."""
    lefts = [left]
    while len(lefts) < layouts:
        other = drawn_from(draws, set(unseen), len(left))
        if other not in lefts:
            lefts.append(other)
    return lefts


def deals(seed, tricks, strain, layouts=1):
    """Deals without end. Four hands of five cards are dealt first and thrown away: the numbers of the hard deals count deals that
    were drawn this way."""
    draws = Draws(seed)
    four_hands(draws, 5)
    while True:
        declarer, left, dummy, right = four_hands(draws, tricks)
        trump = NO_TRUMP if strain == "notrump" else draws.below(4)
        unseen = left + right
        yield Deal(declarer, dummy, unseen, different_lefts(draws, left, unseen, layouts), trump)


def workload_deals(first, tricks, strain):
    """The deals of the program of workloads without end, from number `first` on."""
    draws = Draws(WORKLOADS_SEED)
    for number in itertools.count():
        declarer, left, dummy, right = four_hands(draws, tricks)
        trump = draws.below(5)
        draws.below(tricks)  # a need, for other questions
        if number >= first:
            yield Deal(declarer, dummy, left + right, [left], NO_TRUMP if strain == "notrump" else trump % 4)
