"""alphamu for Python: which card should declarer play now, over the layouts that are thought possible?

It calls the library libalphamu.so by ctypes and needs nothing else. There are two ways to ask.

By text, a deal file and a layout file go in, and the program's text comes out:

    import alphamu
    print(alphamu.report(open("deal.pbn", "rb").read(), open("deal.lay", "rb").read(), moves=4))

By bits, hands are sets of cards, and the answer is numbers. In the ending of examples/queen.pbn dummy has the 3 and 2 of
spades, declarer the king and jack, and West the queen or the ace beside the 5:

    question = alphamu.Question(declarer=alphamu.cards("KJ..."), dummy=alphamu.cards("32..."),
                                unseen=alphamu.cards("AQ75..."), leader=alphamu.DUMMY, need=1, moves=2)
    lefts = [alphamu.cards("Q5..."), alphamu.cards("A5...")]
    print(question.card(lefts))  # Choice(card=0, weight=1)

A call that has no answer raises AlphamuError. Calls from several threads run side by side, since ctypes lets go of
Python's lock. Set ALPHAMU_LIBRARY to the path of libalphamu.so if it is in an unusual place.
"""
from __future__ import annotations

import ctypes
import os
from collections.abc import Callable, Sequence
from dataclasses import dataclass
from pathlib import Path
from typing import Any

__all__ = ["AlphamuError", "Choice", "Node", "Question", "Strategy", "Worth", "card", "card_name", "card_number", "cards", "check",
           "from_dds", "fusion", "hand", "list_layouts", "report", "to_dds", "CLUBS", "DECLARER", "DIAMONDS", "DUMMY", "HEARTS", "LEFT",
           "NODES", "NO_TRUMP", "RIGHT", "SPADES"]

SPADES, HEARTS, DIAMONDS, CLUBS, NO_TRUMP = range(5)
DECLARER, LEFT, DUMMY, RIGHT = range(4)
# The most nodes that the search after one card may enter, if you name no other number. It is the program's default.
NODES = 10_000_000

_SUITS, _RANKS = "SHDC", "23456789TJQKA"
_VERSION, _DONE, _NO_ROOM, _NO_CARD = 1, 0, 8, 52
# What a question by bits is refused for.
_LINES = {
    6: "a defender is to play, or no card is left", 7: "a search needs more nodes", 9: "out of memory",
    32: "a hand has a bit from 52 on", 33: "a card is in two of declarer, dummy and unseen",
    34: "the trick has more than 3 cards, or one that is no card", 35: "a card of the trick is in it twice, or still in a hand",
    36: "the sizes of the hands and the trick don't go together", 37: "leader isn't 0 to 3", 38: "trump isn't 0 to 4",
    39: "need isn't 0 to 13", 40: "there is no layout", 41: "there are more than 256 layouts",
    42: "a layout isn't a part of unseen, or not of the size of Left's hand", 43: "there isn't one weight for each layout",
    44: "a weight isn't 1 to 1,000,000", 45: "moves aren't 1 to 26", 46: "nodes are 0",
    47: "the front has fewer vectors",
}


class AlphamuError(Exception):
    """Why there is no answer: `status` is a number of alphamu.h, and `line` says it in words. By text the status is the program's
    and the line the one that it writes to standard error."""

    def __init__(self, status: int, line: str) -> None:
        super().__init__(status, line)
        self.status, self.line = status, line

    def __str__(self) -> str:
        return f"{self.line} (status {self.status})"


# ---- cards

def cards(hand: str) -> int:
    """The set of a hand as PBN writes it: spades, hearts, diamonds and clubs with full stops between them, as `KJ.A5..`."""
    suits = hand.upper().split(".")
    if len(suits) != 4:
        raise ValueError(f"a hand has four suits with three full stops between them: {hand!r}")
    found = 0
    for suit, ranks in enumerate(suits):
        for rank in ranks:
            bit = 1 << 13 * suit + _RANKS.index(rank)
            if found & bit:
                raise ValueError(f"a card is in the hand twice: {hand!r}")
            found |= bit
    return found


def hand(found: int) -> str:
    """A set of cards as PBN writes a hand, from the ace down."""
    return ".".join("".join(_RANKS[rank] for rank in range(12, -1, -1) if found >> 13 * suit + rank & 1) for suit in range(4))


def card_number(name: str) -> int:
    """The number of a card, 0 to 51, by its name, as `S3` or `HT`."""
    suit, rank = list(name.upper())
    return 13 * _SUITS.index(suit) + _RANKS.index(rank)


def card_name(number: int) -> str:
    """The name of a card by its number."""
    return _SUITS[number // 13] + _RANKS[number % 13]


def from_dds(holdings: Sequence[int]) -> int:
    """The set of four holdings of DDS, spades first, as remainCards has them for a hand."""
    return sum((holding >> 2 & 0x1FFF) << 13 * suit for suit, holding in enumerate(holdings))


def to_dds(found: int) -> list[int]:
    """A set of cards as four holdings of DDS."""
    return [(found >> 13 * suit & 0x1FFF) << 2 for suit in range(4)]


# ---- answers by bits

@dataclass(frozen=True)
class Choice:
    """The card to play, and the weight that it wins."""

    card: int
    weight: int


@dataclass(frozen=True)
class Worth:
    """What a card is worth. `vector` has one bit for each layout, as `110`: the first best vector of the front after the card. It
    weighs `weight`, the most that a strategy wins which begins with the card. `double_dummy` is what a simulation with open hands
    believes."""

    card: int
    weight: int
    double_dummy: int
    vector: str


@dataclass(frozen=True)
class Node:
    """A card that is played, and the places in the strategy of its replies, the nodes of the cards that can come next: none if the
    strategy stops after the card, one if declarer or dummy plays next, and otherwise one for each card that the defender may play.
    The first node stands for what has been played already, and has no card."""

    card: int | None
    replies: range


@dataclass(frozen=True)
class Strategy:
    """A strategy of declarer's side. Play begins at place 0 of `nodes`. At declarer's or dummy's turn play `next_card(place)`, and
    after each card, whoever plays it, go on at `after(place, card)`."""

    nodes: tuple[Node, ...]

    def next_card(self, place: int = 0) -> int | None:
        """The card to play at a place at which declarer or dummy is to play. None if the strategy has stopped: no moves are left, or
        the result is decided."""
        replies = self.nodes[place].replies
        return self.nodes[replies[0]].card if replies else None

    def after(self, place: int, card: int) -> int | None:
        """The place to which a card leads. None if the strategy has no reply to it."""
        return next((it for it in self.nodes[place].replies if self.nodes[it].card == card), None)


# ---- the library

class _Question(ctypes.Structure):
    _fields_ = [*((it, ctypes.c_uint64) for it in ("declarer", "dummy", "unseen", "nodes")), ("trick", ctypes.c_uint32 * 3),
                *((it, ctypes.c_uint32) for it in ("played", "leader", "trump", "need", "moves"))]


class _Choice(ctypes.Structure):
    _fields_ = [("card", ctypes.c_uint32), ("weight", ctypes.c_uint32)]


class _Worth(ctypes.Structure):
    _fields_ = [("vector", ctypes.c_uint64 * 4), *((it, ctypes.c_uint32) for it in ("card", "weight", "double_dummy"))]


class _Node(ctypes.Structure):
    _fields_ = [("first_reply", ctypes.c_size_t), ("replies", ctypes.c_size_t), ("card", ctypes.c_uint32)]


_size, _size_at = ctypes.c_size_t, ctypes.POINTER(ctypes.c_size_t)
_file = [ctypes.c_char_p, _size]
_limits = [ctypes.c_uint32, ctypes.c_uint64]
_text = [ctypes.c_void_p, _size, _size_at]
_node = [ctypes.POINTER(_Question), ctypes.POINTER(ctypes.c_uint64), _size, ctypes.POINTER(ctypes.c_uint32), _size]
_CALLS = {
    "version": [],
    "report": [*_file * 2, *_limits, *_text], "card": [*_file * 2, *_limits, *_text], "fusion": [*_file * 2, *_text],
    "list": [*_file, *_text], "check": [*_file * 3, *_text],
    "bits_card": [*_node, ctypes.POINTER(_Choice)], "bits_cards": [*_node, ctypes.POINTER(_Worth), _size, _size_at],
    "bits_front": [*_node, ctypes.POINTER(ctypes.c_uint64), _size, _size_at],
    "bits_strategy": [*_node, _size, ctypes.POINTER(_Node), _size, _size_at],
}


def _places() -> list[str]:
    """The places of the library: named by the user, beside this module, installed with it, built in the repository, or known to the
    system."""
    if named := os.environ.get("ALPHAMU_LIBRARY"):
        return [named]
    here = Path(__file__).resolve().parent
    near = (here / "libalphamu.so.1", here / "../../../lib/libalphamu.so.1", here / "../../crates/alphamu_c/out/libalphamu.so")
    return [*(str(it) for it in near if it.exists()), "libalphamu.so.1"]


def _loaded() -> ctypes.CDLL:
    library = ctypes.CDLL(_places()[0])
    for name, types in _CALLS.items():
        call = getattr(library, "alphamu_" + name)
        call.restype, call.argtypes = ctypes.c_uint32, types
    if (found := library.alphamu_version()) != _VERSION:
        raise ImportError(f"the library has version {found} of the interface, and this module is for version {_VERSION}")
    return library


_library = _loaded()


# ---- by text

def _number(value: int, bits: int) -> int:
    """A number that fits its type. ctypes would cut off the bits that don't."""
    if not 0 <= value < 1 << bits:
        raise ValueError(f"a number from 0 to {(1 << bits) - 1} is needed: {value}")
    return value


def _asked(name: str, files: Sequence[str | bytes], *numbers: int) -> str:
    """Asks a question by text, with a second try if the text is long."""
    given: list[Any] = []
    for it in files:
        data = it.encode() if isinstance(it, str) else bytes(it)
        given += (data, len(data))
    call, room, written = getattr(_library, "alphamu_" + name), 1 << 16, _size()
    while True:
        out = ctypes.create_string_buffer(room)
        status = call(*given, *numbers, out, room, written)
        if status != _NO_ROOM:
            break
        room = written.value
    text = ctypes.string_at(out, written.value).decode("ascii")
    if status != _DONE:
        raise AlphamuError(status, text.removesuffix("\n"))
    return text


def report(deal: str | bytes, layouts: str | bytes, moves: int, nodes: int = NODES) -> str:
    """The report: each best trade-off between the layouts, a strategy for it, and the card to play."""
    return _asked("report", (deal, layouts), _number(moves, 32), _number(nodes, 64))


def card(deal: str | bytes, layouts: str | bytes, moves: int, nodes: int = NODES) -> str:
    """The card to play, with its weight."""
    return _asked("card", (deal, layouts), _number(moves, 32), _number(nodes, 64))


def fusion(deal: str | bytes, layouts: str | bytes) -> str:
    """What a simulation with open hands believes of each card."""
    return _asked("fusion", (deal, layouts))


def list_layouts(deal: str | bytes) -> str:
    """A layout file of all layouts that the play of the deal allows."""
    return _asked("list", (deal,))


def check(deal: str | bytes, layouts: str | bytes, report: str | bytes) -> str:
    """Whether each plan of a report wins exactly its vector. A plan at fault raises AlphamuError with status 1."""
    return _asked("check", (deal, layouts, report))


# ---- by bits

def _vector(words: Sequence[int], layouts: int) -> str:
    """The bits of a vector, in the order of the layouts."""
    return "".join("1" if words[it // 64] >> it % 64 & 1 else "0" for it in range(layouts))


@dataclass(frozen=True)
class Question:
    """A position in which declarer or dummy is to play. `declarer`, `dummy` and `unseen`, the cards of both defenders, are the
    cards still held, as sets. `trick` has the cards of the present trick in the order of play, which are in no hand, and `leader`
    is the seat that led to it or is to lead. `need` is how many tricks declarer's side still needs, and `moves` how many of its
    cards are planned. `nodes` limits the search after each card.

    Each call takes the layouts as the cards that Left, the defender on declarer's left, still holds in each, and their weights,
    all 1 if there are none. Leave out layouts in which a defender would have revoked: a question doesn't know earlier tricks."""

    declarer: int
    dummy: int
    unseen: int
    need: int
    moves: int
    trump: int = NO_TRUMP
    leader: int = DECLARER
    trick: tuple[int, ...] = ()
    nodes: int = NODES

    def card(self, lefts: Sequence[int], weights: Sequence[int] | None = None) -> Choice:
        """The card to play: the first that keeps the greatest weight."""
        found = _Choice()
        self._done(_library.alphamu_bits_card(*self._given(lefts, weights), found))
        return Choice(found.card, found.weight)

    def worths(self, lefts: Sequence[int], weights: Sequence[int] | None = None) -> list[Worth]:
        """What each legal card is worth, in card order."""
        return [Worth(it.card, it.weight, it.double_dummy, _vector(it.vector, len(lefts)))
                for it in self._all(_library.alphamu_bits_cards, _Worth, 13, self._given(lefts, weights))]

    def front(self, lefts: Sequence[int], weights: Sequence[int] | None = None) -> list[str]:
        """The vectors of the front: for each the bits of the layouts, as `110`. Those with more ones come first, and of two with as
        many the one with a 1 at the first layout in which they differ."""
        words = self._all(_library.alphamu_bits_front, ctypes.c_uint64, 256, self._given(lefts, weights))
        return [_vector(words[at:at + 4], len(lefts)) for at in range(0, len(words), 4)]

    def strategy(self, lefts: Sequence[int], weights: Sequence[int] | None = None, vector: int = 0) -> Strategy:
        """The strategy for the vector at a place of `front`, 0 for the first one. It makes the contract in exactly the layouts of the
        vector, whatever the defenders do."""
        nodes = self._all(_library.alphamu_bits_strategy, _Node, 1024, [*self._given(lefts, weights), _number(vector, 64)])
        return Strategy(tuple(Node(None if it.card == _NO_CARD else it.card, range(it.first_reply, it.first_reply + it.replies))
                              for it in nodes))

    def _given(self, lefts: Sequence[int], weights: Sequence[int] | None) -> list[Any]:
        """What every call by bits is given."""
        if len(self.trick) > 3:
            raise AlphamuError(34, _LINES[34])
        weights = [1] * len(lefts) if weights is None else weights
        trick = (ctypes.c_uint32 * 3)(*(_number(it, 32) for it in self.trick))
        sets = (_number(it, 64) for it in (self.declarer, self.dummy, self.unseen, self.nodes))
        rest = (_number(it, 32) for it in (len(self.trick), self.leader, self.trump, self.need, self.moves))
        return [_Question(*sets, trick, *rest), (ctypes.c_uint64 * len(lefts))(*(_number(it, 64) for it in lefts)), len(lefts),
                (ctypes.c_uint32 * len(weights))(*(_number(it, 32) for it in weights)), len(weights)]

    def _all(self, call: Callable[..., int], kind: type[Any], room: int, given: list[Any]) -> Any:
        """What a call writes to an array, with a second try if there is more of it."""
        written = _size()
        while True:
            found = (kind * room)()
            status = call(*given, found, room, written)
            if status != _NO_ROOM:
                break
            room = written.value
        self._done(status)
        return found[:written.value]

    @staticmethod
    def _done(status: int) -> None:
        if status != _DONE:
            raise AlphamuError(status, _LINES.get(status, "no answer"))
