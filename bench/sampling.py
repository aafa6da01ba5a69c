#!/usr/bin/env python3
"""sampling.py STUDY [--boards N] [--tricks T,..] [--layouts L]

What sampling claims on a board, and what it really wins: how many layouts

    claims     sampling makes by its own count: those of the card that makes in most layouts with open hands
    plays on   its player wins who asks sampling again at each of declarer's turns, against a defence that knows the layout and this player
    its card   the best strategy wins that begins with sampling's card
    best       the best strategy wins

Sampling takes the lowest card of the greatest count. A layout counts as won only if no defence beats the player in it, so `plays on` is
found by going through all cards that the defenders may play, and is never more than `its card`.

The boards are those of bench/exact.py: made as the boards of examples/evening are, from the seeds 1, 2, 3 and so on, each at the level at
which the best strategy wins nearest to half of the layouts, if that is from a quarter to nine tenths of them. Rows: 7, 9 and 11 tricks
with 20 layouts, of 20 boards each. A board whose exact value isn't found within the default --nodes is left out.

STUDY is the proved program alphamu_study. The library must be built: ./build library, or set ALPHAMU_LIBRARY. The last two columns don't
depend on time; nor do the others."""
import argparse
import csv
import dataclasses
import io
import pathlib
import subprocess
import sys
import tempfile

from boards import TOP, make

sys.path.insert(0, str(TOP / "bindings" / "python"))
import alphamu

LEVELS = range(1, 8)
SUITS, NO_TRUMP = "SHDC", 4


@dataclasses.dataclass(frozen=True)
class Position:
    """What declarer sees. Seats count clockwise from declarer; cards are numbers, and hands are sets of bits."""

    declarer: int
    dummy: int
    unseen: int
    trump: int
    leader: int
    need: int
    trick: tuple[int, ...] = ()

    def seat(self):
        return (self.leader + len(self.trick)) % 4

    def after(self, card):
        """The position after a card."""
        bit, seat = 1 << card, self.seat()
        kept = dataclasses.replace(self, declarer=self.declarer & ~bit, dummy=self.dummy & ~bit, unseen=self.unseen & ~bit,
                                   trick=(*self.trick, card))
        if len(kept.trick) < 4:
            return kept
        led = card_suit(kept.trick[0])
        strength = [(card_suit(it) == self.trump, card_suit(it) == led, it % 13) for it in kept.trick]
        winner = (self.leader + strength.index(max(strength))) % 4
        return dataclasses.replace(kept, leader=winner, need=self.need - (winner % 2 == 0), trick=())

    def legal(self, hand):
        """The cards of a hand that may be played."""
        following = hand & 0x1FFF << 13 * card_suit(self.trick[0]) if self.trick else 0
        return following or hand


def card_suit(card):
    return card // 13


def cards_of(found):
    return [card for card in range(52) if found >> card & 1]


class Player:
    """Plays by sampling, over the layouts that are still possible. Layouts are named by their places."""

    def __init__(self, lefts):
        self.lefts, self.known = lefts, {}

    def hand(self, at, place, left):
        """What the defender whose turn it is holds in a layout."""
        return left & at.unseen if at.seat() == 1 else at.unseen & ~left

    def sampled(self, at, places):
        """The card that sampling names, and the layouts that it makes with open hands."""
        question = alphamu.Question(declarer=at.declarer, dummy=at.dummy, unseen=at.unseen, need=at.need, moves=1, trump=at.trump,
                                    leader=at.leader, trick=at.trick)
        worths = question.worths([self.lefts[it] & at.unseen for it in places])
        best = max(worths, key=lambda it: it.double_dummy)
        return best.card, frozenset(place for place, bit in zip(places, best.vector) if bit == "1")

    def wins(self, at, places, wanted):
        """Of the wanted layouts, those that the player wins from here on, if `places` are possible."""
        if at.need <= 0 or not wanted:
            return wanted
        if not at.declarer and not at.dummy and not at.unseen:
            return frozenset()
        key = at, places, wanted
        if key not in self.known:
            self.known[key] = (self.at_own_turn if at.seat() % 2 == 0 else self.at_defenders_turn)(at, places, wanted)
        return self.known[key]

    def at_own_turn(self, at, places, wanted):
        card, makes = self.sampled(at, places)
        # With one layout, open hands are what the player sees.
        return wanted & makes if len(places) == 1 else self.wins(at.after(card), places, wanted & makes)

    def at_defenders_turn(self, at, places, wanted):
        legal = {place: at.legal(self.hand(at, place, self.lefts[place])) for place in places}
        for card in cards_of(at.unseen):
            possible = tuple(place for place in places if legal[place] >> card & 1)
            tried = wanted & frozenset(possible)
            wanted -= tried - self.wins(at.after(card), possible, tried)
        return wanted


def bits(hand):
    return alphamu.cards(hand)


def position_of(table, level):
    """What declarer sees of a board of examples/evening at a level of its contract."""
    seats = [table.hands[(table.declarer + it) % 4] for it in range(4)]
    left, right = seats[1], seats[3]
    trick = table.tricks[-1][1] if table.tricks and len(table.tricks[-1][1]) < 4 else []
    sets = [sum(1 << alphamu.card_number(card) for card in it) for it in (seats[0], seats[2], left + right)]
    trump = SUITS.find(table.trump) if table.trump in SUITS else NO_TRUMP
    return Position(*sets, trump=trump, leader=(table.leader - table.declarer) % 4, need=max(level + 6 - table.taken(), 0),
                    trick=tuple(alphamu.card_number(card) for card in trick))


def lefts_of(table, lines):
    """What the defender on declarer's left still holds in each layout of a file."""
    left = (table.declarer + 1) % 4
    gone = sum(1 << alphamu.card_number(card) for card in table.dealt[left] if card not in table.hands[left])
    return [bits(line.removeprefix("N:").split()[left]) & ~gone for line in lines]


class Exact:
    """What the best strategies win, by the study's exact cards."""

    def __init__(self, study, room):
        self.study, self.deal, self.layouts = study, room / "deal.pbn", room / "layouts.lay"

    def most(self, table, level, lines):
        """The most layouts by each card; nothing, if it isn't found."""
        make.write(self.deal, make.game(1, table, level))
        make.write(self.layouts, lines)
        words = [self.study, "--job", "cards", "--deal", self.deal, "--layouts", self.layouts, "--form", "csv"]
        done = subprocess.run(words, capture_output=True, text=True)
        rows = list(csv.DictReader(io.StringIO(done.stdout)))
        if done.returncode != 0 or any(row["final"] != "yes" for row in rows):
            return None
        return {row["card"]: int(row["most"]) for row in rows}

    def contested(self, table, lines):
        """The level at which the best strategy wins nearest to half of the layouts, and what each card wins then."""
        found = []
        for level in LEVELS:
            cards = self.most(table, level, lines)
            value = max(cards.values()) if cards else None
            if value is not None and len(lines) / 4 <= value <= len(lines) * 9 / 10:
                found.append((abs(value - len(lines) / 2), level, cards))
            if value == 0:
                break
        return min(found, key=lambda it: it[:2])[1:] if found else None


def figures(exact, seed, tricks, count):
    """What sampling claims, what it wins if it plays on, what its card is worth, and the best; nothing, if the board isn't contested."""
    chance = make.Chance(seed)
    table = make.board(chance, 13 - tricks)
    lines = make.layouts(table, chance, count)
    answer = exact.contested(table, lines) if len(lines) == count else None
    if answer is None:
        return None
    level, cards = answer
    player, at, places = Player(lefts_of(table, lines)), position_of(table, level), tuple(range(count))
    card, makes = player.sampled(at, places)
    wins = player.wins(at, places, frozenset(places))
    return len(makes), len(wins), cards[alphamu.card_name(card)], max(cards.values())


def row(exact, tricks, count, boards):
    found, seed = [], 0
    while len(found) < boards:
        seed += 1
        if answer := figures(exact, seed, tricks, count):
            found.append(answer)
    if any(not wins <= worth <= best <= claims for claims, wins, worth, best in found):
        sys.exit("no player wins more than the best strategy, and that no more than open hands")
    means = [sum(column) / boards for column in zip(*found)]
    print(f"| {tricks} | {count} | " + " | ".join("%.1f" % mean for mean in means) + " |", flush=True)


def main():
    parser = argparse.ArgumentParser(description=__doc__, formatter_class=argparse.RawDescriptionHelpFormatter)
    parser.add_argument("study", type=pathlib.Path)
    parser.add_argument("--boards", type=int, default=20)
    parser.add_argument("--tricks", default="7,9,11")
    parser.add_argument("--layouts", type=int, default=20)
    given = parser.parse_args()
    print("| tricks | layouts | claims | plays on | its card | best |\n|---|---|---|---|---|---|")
    with tempfile.TemporaryDirectory() as room:
        for tricks in map(int, given.tricks.split(",")):
            row(Exact(given.study, pathlib.Path(room)), tricks, given.layouts, given.boards)
    print(f"again: bench/sampling.py {' '.join(sys.argv[1:])}")


if __name__ == "__main__":
    main()
