"""The rules of play that a board needs before alphamu is asked: whose turn it is, which cards follow suit, which are equal.

No call of alphamu_study says these by themselves. Everything else, as which cards declarer may choose and what each makes,
comes from its answers."""
from __future__ import annotations

from collections.abc import Iterable, Mapping, Sequence
from dataclasses import dataclass, field

SEATS, SUITS, RANKS = "NESW", "SHDC", "23456789TJQKA"
PACK = tuple(suit + rank for suit in SUITS for rank in RANKS)
Trick = list[tuple[str, str]]


def after(seat: str, steps: int = 1) -> str:
    """The seat that many steps clockwise."""
    return SEATS[(SEATS.index(seat) + steps) % 4]


def order(card: str) -> int:
    return PACK.index(card)


def written(cards: Iterable[str]) -> str:
    """A hand as PBN writes it."""
    held = sorted(cards, key=order, reverse=True)
    return ".".join("".join(it[1] for it in held if it[0] == suit) for suit in SUITS)


def hand_read(text: str) -> tuple[str, ...]:
    """The cards of a hand that PBN writes; none for a hand that is hidden."""
    suits = [] if text == "-" else text.upper().split(".")
    if len(suits) > 4 or any(rank not in RANKS for ranks in suits for rank in ranks):
        raise ValueError(f"no hand: {text}")
    return tuple(suit + rank for suit, ranks in zip(SUITS, suits) for rank in ranks)


def winner(trick: Trick, trump: str) -> str:
    """Who wins a trick of four cards, or would with the cards played so far."""
    led = trick[0][1][0]
    return max(trick, key=lambda it: (it[1][0] == trump, it[1][0] == led, RANKS.index(it[1][1])))[0]


def following(hand: Iterable[str], led: str) -> list[str]:
    """The cards of a hand that may be played to a trick with that suit led, or "" for a lead."""
    held = sorted(hand, key=order)
    return [it for it in held if it[0] == led] or held


@dataclass(frozen=True)
class Board:
    """A board, its contract and its play. A hand without cards is hidden."""
    hands: Mapping[str, tuple[str, ...]]
    declarer: str
    contract: str
    lead: str
    play: tuple[str, ...] = ()
    need: int | None = None
    result: int | None = None
    tags: Mapping[str, str] = field(default_factory=dict)

    @property
    def trump(self) -> str:
        return self.contract[1:2]

    @property
    def goal(self) -> int:
        """How many tricks declarer's side needs, from the cards of the deal."""
        return self.need if self.need is not None else 6 + int(self.contract[0])

    @property
    def dummy(self) -> str:
        return after(self.declarer, 2)

    @property
    def defenders(self) -> tuple[str, str]:
        return after(self.declarer), after(self.declarer, 3)

    @property
    def start(self) -> int:
        """After how many cards it is opened: where its play breaks off without a result, or at dummy's first turn."""
        return len(self.play) if self.result is None else min(1, len(self.play))

    @property
    def length(self) -> int:
        """How many cards each hand has."""
        return len(self.hands[self.declarer])


@dataclass(frozen=True)
class Position:
    """A board after some cards. `turn` is "" if none is left to play."""
    board: Board
    tricks: tuple[Trick, ...]
    turn: str

    @property
    def cards(self) -> list[str]:
        return [card for trick in self.tricks for _, card in trick]

    @property
    def trick(self) -> Trick:
        """The trick to which somebody has yet to play."""
        return self.tricks[-1] if self.tricks and len(self.tricks[-1]) < 4 else []

    @property
    def led(self) -> str:
        return self.trick[0][1][0] if self.trick else ""

    def won(self) -> list[str]:
        """The winner of each trick that is complete."""
        return [winner(it, self.board.trump) for it in self.tricks if len(it) == 4]

    def left(self, seat: str) -> list[str]:
        """The cards that a seat of the board has left."""
        gone = set(self.cards)
        return [it for it in self.board.hands[seat] if it not in gone]


def position(board: Board, cards: Sequence[str]) -> Position:
    """The board after these cards, of which each has to be in the pack once."""
    if len(set(cards)) < len(cards) or len(cards) > 4 * board.length:
        raise ValueError("a card is played twice")
    tricks: list[Trick] = []
    turn = board.lead
    for card in cards:
        if not tricks or len(tricks[-1]) == 4:
            tricks.append([])
        tricks[-1].append((turn, card))
        turn = winner(tricks[-1], board.trump) if len(tricks[-1]) == 4 else after(turn)
    return Position(board, tuple(tricks), turn if len(cards) < 4 * board.length else "")


def replies(at: Position, layouts: Sequence[Mapping[str, tuple[str, ...]]]) -> dict[str, int]:
    """The cards that the defender to play may have, and in how many of the layouts he may play each."""
    gone, found = set(at.cards), dict[str, int]()
    for layout in layouts:
        for card in following([it for it in layout[at.turn] if it not in gone], at.led):
            found[card] = found.get(card, 0) + 1
    return {it: found[it] for it in sorted(found, key=order)}


def equals(at: Position, cards: Sequence[str]) -> list[list[str]]:
    """The legal cards of the hand to play, in groups that are equal: no card that is still out lies between two of them."""
    own, gone = set(at.left(at.turn)), {card for trick in at.tricks if len(trick) == 4 for _, card in trick}
    groups: list[list[str]] = []
    for card in sorted(cards, key=order):
        last = groups[-1][-1] if groups else ""
        between = PACK[order(last) + 1:order(card)] if last and last[0] == card[0] else None
        if between is not None and all(it in own or it in gone for it in between):
            groups[-1].append(card)
        else:
            groups.append([card])
    return groups
