"""Reads BBO's `.lin` files: hands, auction, play and claim become boards.

A file is a row of marks `name|value|`. Those that matter are `pn` the players, `md` dealer and hands, `sv` who is vulnerable, `ah` and
`qx` the board, `mb` a call, `pc` a card, `mc` the tricks that declarer claims. All others are skipped. Seats come as South, West,
North, East."""
from __future__ import annotations

import re
from collections.abc import Iterator
from dataclasses import dataclass, field

from .play import PACK, SEATS, Board, after, position

ORDER = "SWNE"
CALL = re.compile(r"([1-7])(N|[SHDC])T?|(XX|R)|(X|D)|(P(?:ASS)?)|[!?*]", re.I)
CARD = re.compile(r"([SHDC])(10|[2-9TJQKA])", re.I)
VULNERABLE = {"o": "None", "0": "None", "-": "None", "n": "NS", "e": "EW", "b": "All"}


@dataclass
class Record:
    """What has been read of one board."""
    players: list[str]
    deal: str = ""
    calls: list[str] = field(default_factory=list)
    cards: list[str] = field(default_factory=list)
    claim: int | None = None
    vulnerable: str = ""
    board: str = ""
    room: str = ""


def marks(text: str) -> Iterator[tuple[str, str]]:
    """The marks of a file with their values."""
    parts = text.lstrip("\ufeff").split("|")
    for name, value in zip(parts[::2], parts[1::2]):
        yield name.strip().lower(), value.replace("\r", "").replace("\n", " ")


def is_lin(text: str) -> bool:
    return re.search(r"(^|\|)\s*md\|\s*[1-4]", text) is not None


def hands_of(deal: str) -> dict[str, tuple[str, ...]]:
    """The four hands of `md`, of which the last may be left out."""
    told = deal.lstrip()[1:].rstrip(", ").split(",")
    if not 3 <= len(told) <= 4:
        raise ValueError("md: there have to be three or four hands")
    hands = {seat: hand_of(it) for seat, it in zip(ORDER, told)}
    dealt = [card for hand in hands.values() for card in hand]
    if len(hands) == 3:
        hands["E"] = tuple(it for it in PACK if it not in dealt)
    if any(len(hand) != 13 for hand in hands.values()) or len({card for hand in hands.values() for card in hand}) != 52:
        raise ValueError("md: the hands aren't thirteen different cards each")
    return hands


def hand_of(told: str) -> tuple[str, ...]:
    cards, suit = list[str](), ""
    for it in told.strip().upper().replace("10", "T"):
        if it in "SHDC":
            suit = it
        elif suit and suit + it in PACK:
            cards.append(suit + it)
        else:
            raise ValueError(f"md: no hand: {told[:20]}")
    return tuple(cards)


def calls_of(value: str) -> Iterator[str]:
    """The calls of `mb`: mostly one, without the mark of an alert."""
    for level, suit, redoubled, doubled, passed in CALL.findall(value.strip()):
        if level:
            yield level + suit.upper()
        elif redoubled or doubled or passed:
            yield "XX" if redoubled else "X" if doubled else "P"


def contract_of(calls: list[str], dealer: str) -> tuple[str, str]:
    """The contract and its declarer, who first bid its suit for the side; both empty if the board was passed out."""
    bids = [(after(dealer, step), call) for step, call in enumerate(calls) if call[0] in "1234567"]
    if not bids:
        return "", ""
    seat, last = bids[-1]
    side = (seat, after(seat, 2))
    doubles = [it for it in calls[len(calls) - calls[::-1].index(last):] if it in ("X", "XX")]
    return last + (doubles[-1] if doubles else ""), next(who for who, call in bids if who in side and call[1] == last[1])


def result_of(board: Board, claim: int | None) -> int | None:
    """The tricks of declarer's side: claimed, or won if all is played."""
    at = position(board, board.play)
    return claim if claim is not None else None if at.turn else sum(it not in board.defenders for it in at.won())


def board_of(record: Record) -> Board | None:
    """The board of a record, or None if it was passed out."""
    hands, dealer = hands_of(record.deal), ORDER[int(record.deal.lstrip()[0]) - 1]
    contract, declarer = contract_of(record.calls, dealer)
    if not contract:
        return None
    names = dict(zip(("South", "West", "North", "East"), record.players[4 * (record.room == "c"):][:4]))
    tags = {"Board": record.board, "Dealer": dealer, "Vulnerable": record.vulnerable, **names}
    shown = {name: value.strip() for name, value in tags.items() if value.strip()}
    board = Board(hands, declarer, contract, after(declarer), tuple(record.cards), None, None, shown)
    position(board, board.play)
    return Board(hands, declarer, contract, board.lead, board.play, None, result_of(board, record.claim), shown)


def records(text: str) -> Iterator[Record]:
    """The boards of a file. Each begins with the first of `qx`, `pn` and `md`; without `pn` it has the players of the board before."""
    now, players = Record([]), list[str]()
    for name, value in marks(text):
        if now.deal and (name in ("qx", "md") or name == "pn" and now.calls):
            yield now
            now = Record(players)
        if name == "qx":
            now.room, now.board = value[:1].lower(), re.sub(r"\D", "", value.split(",")[0])
        elif name == "md":
            now.deal = value
        elif name == "pn":
            players = now.players = value.split(",")
        elif name == "sv":
            now.vulnerable = VULNERABLE.get(value.strip().lower(), "")
        elif name == "ah":
            now.board = re.sub(r"\D", "", value)
        elif name == "mb":
            now.calls += calls_of(value)
        elif name == "pc":
            now.cards += [suit.upper() + rank.upper().replace("10", "T") for suit, rank in CARD.findall(value)]
        elif name == "mc" and value.strip().isdecimal():
            now.claim = int(value)
    if now.deal:
        yield now


def boards(text: str) -> list[Board | None]:
    """The boards of a `.lin` file in order, None for one that was passed out; a ValueError says what is wrong."""
    found = list(records(text))
    if not found:
        raise ValueError("md: no board")
    return [board_of(it) for it in found]


assert set(ORDER) == set(SEATS)
