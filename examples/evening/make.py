#!/usr/bin/env python3
"""Makes an evening: 24 boards after six tricks, and up to twenty layouts for each.

Usage: examples/evening/make.py FOLDER. It writes FOLDER/evening.pbn, the games of all boards with an empty line between them, and
FOLDER/evening.lay.1 to FOLDER/evening.lay.24. It writes the same bytes each time, since it draws the cards by a generator of its own.

The side with more high cards plays in its longest suit, or in no trump if it has no eight-card fit. Declarer's side draws trumps
first; otherwise each seat leads from its longest side suit. Second hand plays low, and third and fourth hand win as cheaply as they
can. The question comes after six tricks, at the next turn of declarer's side. The seeds and the levels of the contracts were chosen
so that most boards leave something to decide; board 17 was passed out. The layouts are dealt at random from the cards that the
defenders have left, and none gives a defender a suit that he has shown out of. The true layout is one of them."""
import pathlib
import sys

# The seed and the level of each board, in order; level 0 means passed out.
BOARDS = [(16, 2), (23, 4), (36, 3), (47, 1), (53, 4), (31, 3), (102, 4), (80, 3), (91, 3), (94, 1), (113, 2), (119, 3), (144, 4), (152, 4),
          (138, 5), (239, 4), (1, 0), (188, 5), (222, 3), (235, 4), (256, 3), (4, 3), (206, 2), (177, 3)]
LAYOUTS, TRICKS = 20, 6
SEATS, SUITS, RANKS = "NESW", "SHDC", "23456789TJQKA"
PACK = [suit + rank for suit in SUITS for rank in RANKS]
POINTS = {"A": 4, "K": 3, "Q": 2, "J": 1}
VULNERABLE = "None NS EW All NS EW All None EW All None NS All None NS EW".split()


class Chance:
    """Pseudo-random numbers, the same in each run."""

    def __init__(self, seed):
        self.state = seed * 2654435761

    def below(self, bound):
        self.state = (self.state * 6364136223846793005 + 1442695040888963407) % 2**64
        return (self.state >> 33) % bound

    def shuffled(self, cards):
        cards = list(cards)
        for last in range(len(cards) - 1, 0, -1):
            other = self.below(last + 1)
            cards[last], cards[other] = cards[other], cards[last]
        return cards


def rank(card):
    return RANKS.index(card[1])


def points(hand):
    return sum(POINTS.get(card[1], 0) for card in hand)


def in_suit(hand, suit):
    return [card for card in hand if card[0] == suit]


def written(hand):
    """A hand as PBN writes it."""
    return ".".join("".join(card[1] for card in sorted(in_suit(hand, suit), key=rank, reverse=True)) for suit in SUITS)


class Table:
    """Hands by seat, the declarer, the trumps, and the tricks so far, each with its leader."""

    def __init__(self, chance):
        cards = chance.shuffled(PACK)
        self.dealt = [cards[place * 13:place * 13 + 13] for place in range(4)]
        self.hands = [list(hand) for hand in self.dealt]
        self.trump, self.declarer = contract_of(self.dealt)
        self.leader, self.tricks = (self.declarer + 1) % 4, []

    def is_declarers(self, seat):
        return seat % 2 == self.declarer % 2

    def defenders(self):
        return [(self.declarer + 1) % 4, (self.declarer + 3) % 4]

    def strength(self, card, led):
        """The order in which cards take a trick: trumps before the suit led, and high cards before low ones."""
        return card[0] == self.trump, card[0] == led, rank(card)

    def winner(self, trick):
        """The place of the card that is winning the trick."""
        return max(range(len(trick)), key=lambda place: self.strength(trick[place], trick[0][0]))

    def lead(self, seat):
        """The highest card of a suit if the other side has nothing higher, and otherwise the lowest."""
        hand, against = self.hands[seat], self.hands[(seat + 1) % 4] + self.hands[(seat + 3) % 4]
        draws = self.is_declarers(seat) and in_suit(hand, self.trump) and in_suit(against, self.trump)
        side = [suit for suit in SUITS if suit != self.trump and in_suit(hand, suit)]
        suit = self.trump if draws or not side else max(side, key=lambda it: len(in_suit(hand, it)))
        low, high = (pick(in_suit(hand, suit), key=rank) for pick in (min, max))
        return low if any(rank(card) > rank(high) for card in in_suit(against, suit)) else high

    def follow(self, seat, trick):
        """Second hand low; otherwise the cheapest card that takes the trick from the other side, or the lowest."""
        led, hand = trick[0][0], self.hands[seat]
        same, best = in_suit(hand, led), self.winner(trick)
        beating = [card for card in same or hand if self.strength(card, led) > self.strength(trick[best], led)]
        if beating and len(trick) - best != 2 and not (same and len(trick) == 1):
            return min(beating, key=rank)
        loose = same or [card for card in hand if card[0] != self.trump] or hand
        return min(loose, key=lambda card: (-len(in_suit(loose, card[0])), rank(card)))

    def play(self, cards):
        """A trick of this many cards. A whole trick gives the lead to the seat that takes it."""
        trick = []
        for place in range(cards):
            seat = (self.leader + place) % 4
            card = self.follow(seat, trick) if trick else self.lead(seat)
            self.hands[seat].remove(card)
            trick.append(card)
        self.tricks.append((self.leader, trick))
        if cards == 4:
            self.leader = (self.leader + self.winner(trick)) % 4

    def taken(self):
        """The tricks that declarer's side has taken."""
        whole = [(leader, trick) for leader, trick in self.tricks if len(trick) == 4]
        return sum(self.is_declarers(leader + self.winner(trick)) for leader, trick in whole)

    def shown_out(self, seat):
        """The suits that a seat has shown out of."""
        cards = [(trick[0][0], trick[(seat - leader) % 4]) for leader, trick in self.tricks if (seat - leader) % 4 < len(trick)]
        return {led for led, card in cards if card[0] != led}


def contract_of(hands):
    """Trumps, or NT, and the declarer: the partner with more trumps, or with more points in no trump."""
    first = 0 if points(hands[0] + hands[2]) >= 20 else 1
    both = hands[first] + hands[first + 2]
    suit = max(SUITS, key=lambda it: len(in_suit(both, it)))
    trump = suit if len(in_suit(both, suit)) >= 8 else "NT"
    return trump, max(first, first + 2, key=lambda seat: (len(in_suit(hands[seat], trump)), points(hands[seat])))


def board(chance, tricks):
    """A board after this many tricks, at the next turn of declarer's side."""
    table = Table(chance)
    for _ in range(tricks):
        table.play(4)
    if not table.is_declarers(table.leader):
        table.play(1)
    return table


def row(first, leader, trick):
    """A trick as a row of the Play section, whose columns begin with the seat that made the opening lead."""
    places = [(first + column - leader) % 4 for column in range(4)]
    return " ".join(trick[place] if place < len(trick) else "-" for place in places)


def head(number, hands):
    return ['[Event "Club evening"]', '[Board "%d"]' % number, '[Dealer "%s"]' % SEATS[(number - 1) % 4],
            '[Vulnerable "%s"]' % VULNERABLE[(number - 1) % 16], '[Deal "N:%s"]' % " ".join(map(written, hands))]


def game(number, table, level):
    first = (table.declarer + 1) % 4
    lines = ['[Declarer "%s"]' % SEATS[table.declarer], '[Contract "%d%s"]' % (level, table.trump), '[Play "%s"]' % SEATS[first]]
    return head(number, table.dealt) + lines + [row(first, leader, trick) for leader, trick in table.tricks] + ["*"]


def layouts(table, chance, count):
    """The true layout and others that the play allows, at most this many, in random order."""
    left, right = table.defenders()
    voids = table.shown_out(left), table.shown_out(right)
    fixed = [card for card in table.hands[left] + table.hands[right] if card[0] in voids[0] | voids[1]]
    free = sorted(card for card in table.hands[left] + table.hands[right] if card not in fixed)
    given = [[card for card in fixed if card[0] in voids[1 - side]] for side in (0, 1)]
    room, found = len(table.hands[left]) - len(given[0]), {frozenset(table.hands[left])}
    for _ in range(40 * count):
        if len(found) < count:
            found.add(frozenset(given[0] + chance.shuffled(free)[:room]))
    unseen, lines = set(table.hands[left] + table.hands[right]), []
    for lefts in chance.shuffled(sorted(found, key=sorted)):
        guess = list(table.dealt)
        for seat, cards in ((left, lefts), (right, unseen - lefts)):
            guess[seat] = [card for card in table.dealt[seat] if card not in table.hands[seat]] + sorted(cards)
        lines.append("N:" + " ".join(map(written, guess)))
    return lines


def write(path, lines):
    path.write_text("".join(line + "\n" for line in lines))


def with_empty_lines(games):
    """The lines of all games, with an empty line between them."""
    return [line for lines in games for line in lines + [""]][:-1]


def evening(folder):
    """Writes the evening."""
    games = []
    for number, (seed, level) in enumerate(BOARDS, 1):
        chance = Chance(seed)
        table = board(chance, TRICKS)
        games.append(game(number, table, level) if level else head(number, table.dealt) + ['[Contract "Pass"]'])
        write(folder / ("evening.lay.%d" % number), layouts(table, chance, LAYOUTS) if level else [])
    write(folder / "evening.pbn", with_empty_lines(games))


def main():
    if len(sys.argv) != 2:
        sys.exit(__doc__)
    evening(pathlib.Path(sys.argv[1]))


if __name__ == "__main__":
    main()
