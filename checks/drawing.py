"""Layouts that are drawn, for the second reading (reading.py): conditions on the defenders' hands, and the layouts that fit them.

It follows docs/USING.md and docs/definitions/drawn-layouts.md and takes nothing from the program. Layouts are counted in two ways: one
by one, and for whole deals by sums over the suits, in which the small cards of a suit are only a number.
"""
import itertools
import math
import re
from collections import Counter

import reading
from playing import RANKS, card_named

MOST_SEED = 2 ** 64 - 1
SUIT_WORDS = (b"spades", b"hearts", b"diamonds", b"clubs")
SHAPES = ([3, 3, 3, 4], [2, 3, 4, 4], [2, 3, 3, 5])
NUMBER = rb"(0|[1-9][0-9]?)"
SPAN = re.compile(NUMBER + rb"(?:(\+)|-" + NUMBER + rb")?")
NOT_UNDERSTOOD, UPSIDE_DOWN = b"isn't understood", b"is upside down"


class BadTerm(Exception):
    """A term that isn't a term, as it stands between the commas, and why."""


# Hands.

def points_of(card):
    """4, 3, 2 and 1 for an ace, king, queen and jack."""
    return max(0, card % 13 - RANKS.index(b"T"))


class Hand:
    """What a condition asks about: how many cards of each suit, the points, and the cards themselves."""

    def __init__(self, cards, lengths=None, points=None):
        self.cards = frozenset(cards)
        self.lengths = lengths or tuple(sum(card // 13 == suit for card in cards) for suit in range(4))
        self.points = sum(map(points_of, cards)) if points is None else points


# Conditions. A term is a test of a hand, with the cards that it names.

def term_of(piece):
    """The test and the cards of a term."""
    words = [word for word in re.split(rb"[ \t\r]+", piece) if word]
    first, more = words[:1], words[1:]
    if first == [b"balanced"] and not more:
        return (lambda hand: sorted(hand.lengths) in SHAPES), frozenset()
    if first in ([b"holds"], [b"lacks"]) and more:
        cards = frozenset(map(card_named, more))
        if None not in cards:
            return (cards.issubset if first == [b"holds"] else cards.isdisjoint), cards
    if len(words) == 2 and words[1] in (b"hcp", *SUIT_WORDS):
        span = SPAN.fullmatch(words[0])
        if span:
            least = int(span[1])
            most = 99 if span[2] else int(span[3] or span[1])
            if least > most:
                raise BadTerm(piece, UPSIDE_DOWN)
            if words[1] == b"hcp":
                return (lambda hand: least <= hand.points <= most), frozenset()
            suit = SUIT_WORDS.index(words[1])
            return (lambda hand: least <= hand.lengths[suit] <= most), frozenset()
    raise BadTerm(piece, NOT_UNDERSTOOD)


class Condition:
    """Terms that a hand has to meet."""

    def __init__(self, text):
        self.terms = [(test, cards) for test, cards in map(term_of, text.split(b","))]
        self.cards = frozenset().union(*(cards for _, cards in self.terms))

    def is_met_by(self, hand):
        return all(test(hand.cards if cards else hand) for test, cards in self.terms)


def meets_one(conditions, hand):
    return not conditions or any(condition.is_met_by(hand) for condition in conditions)


# The layouts that fit a board. Conditions are a pair of lists: those on Left's hand and those on Right's.

class Fitting:
    """The layouts that the play of a board allows and that meet the conditions."""

    def __init__(self, board, conditions=((), ())):
        self.board, self.conditions = board, conditions
        self.must = reading.held_by_play(board)
        self.free = sorted(board.unseen - self.must[1] - self.must[3]) if self.must else []
        self.wanted = board.tricks - len(self.must[1]) if self.must else -1

    def divisions(self):
        """How many layouts the play allows."""
        return math.comb(len(self.free), self.wanted) if self.wanted >= 0 else 0

    def fits(self, left, right):
        return meets_one(self.conditions[0], left) and meets_one(self.conditions[1], right)

    def layouts(self):
        """Each of them, in the order of `list`."""
        board, found = self.board, []
        played = {card for _, card in board.plays}
        for more in itertools.combinations(self.free, self.wanted) if self.wanted >= 0 else ():
            left = self.must[1] | set(more)
            if self.fits(Hand(left), Hand(board.unseen - left)):
                found.append((frozenset(left), board.unseen - left))
        return sorted(found, key=lambda layout: sorted(layout[0] - played))

    def count(self):
        """How many there are, by sums over the suits."""
        if self.wanted < 0:
            return 0
        named = frozenset().union(*(it.cards for side in self.conditions for it in side)) & set(self.free)
        return sum(self.count_with(frozenset(held), named) for size in range(len(named) + 1) for held in itertools.combinations(sorted(named), size))

    def count_with(self, held, named):
        """How many there are in which Left has just these of the named cards."""
        other = [card for card in self.free if card not in named]
        sums = Counter({(0, (), 0): 1})
        for suit in range(4):
            of_suit = ways_in([card for card in other if card // 13 == suit])
            added = Counter()
            for (size, lengths, points), ways in sums.items():
                for (length, more), choices in of_suit.items():
                    added[size + length, (*lengths, length), points + more] += ways * choices
            sums = added
        left, unseen = Hand(self.must[1] | held), Hand(self.board.unseen)
        right_cards = self.must[3] | (named - held)
        found = 0
        for (size, lengths, points), ways in sums.items():
            if size == self.wanted - len(held):
                lefts = Hand(left.cards, tuple(map(sum, zip(left.lengths, lengths))), left.points + points)
                rights = Hand(right_cards, tuple(a - b for a, b in zip(unseen.lengths, lefts.lengths)), unseen.points - lefts.points)
                found += ways if self.fits(lefts, rights) else 0
        return found


def ways_in(cards):
    """In how many ways a hand can have this many of these cards of a suit with this many points."""
    honours = [points_of(card) for card in cards if points_of(card)]
    small, found = len(cards) - len(honours), Counter()
    for size in range(len(honours) + 1):
        for chosen in itertools.combinations(honours, size):
            for length in range(small + 1):
                found[size + length, sum(chosen)] += math.comb(small, length)
    return found


# The file.

def head_line(drawn, count, seed):
    return b"%% %d of %d layouts that the play and these conditions allow, seed %d\n" % (drawn, count, seed)


def file_text(board, layouts, count, seed):
    """The file of these layouts, which are drawn from that many."""
    lines = [b"% alphamu layouts 1", *(reading.deal_text(board, it) for it in layouts)]
    return head_line(len(layouts), count, seed) + b"".join(line + b"\n" for line in lines)
