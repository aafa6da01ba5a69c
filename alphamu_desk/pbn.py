"""Reads the games of a PBN file for the screen, and writes a board, a question or a line of play as PBN.

What a file must have is alphamu's to say: the desk puts each game before it as it stands, and this reader is only asked for
what alphamu has taken."""
from __future__ import annotations

import re
from collections.abc import Iterator, Mapping, Sequence
from dataclasses import dataclass, replace

from .play import SEATS, Board, Position, after, hand_read, position, written

TAG = re.compile(r'^\s*\[(\w+)\s+"((?:[^"\\]|\\.)*)"\s*\]', re.M)
NOISE = re.compile(r"\{[^}]*\}|;[^\n]*|\$\d+|=\d+=")
TOKEN = re.compile(r"([SHDC](?:10|[2-9TJQKA])|-)\S*|(\*)|(\+)\S*", re.I)
SHOWN = ("Event", "Site", "Date", "Board", "Dealer", "Vulnerable", "North", "East", "South", "West")


@dataclass(frozen=True)
class Game:
    """A game of a file: its text, and the number of the line on which it begins."""
    text: str
    line: int

    def at_its_lines(self) -> str:
        """The text with empty lines before it, so that alphamu counts the lines of the file."""
        return "\n" * (self.line - 1) + self.text + "\n"


def games(text: str) -> Iterator[Game]:
    """The games of a file. An empty line ends a game."""
    begun, kept = 1, list[str]()
    for number, line in enumerate([*text.splitlines(), ""], 1):
        if line.strip():
            begun = begun if kept else number
            kept.append(line)
        elif kept:
            if TAG.search("\n".join(kept)):
                yield Game("\n".join(kept), begun)
            kept = []


def tags_of(game: Game) -> dict[str, str]:
    """The tags of a game, of which the first of a name counts."""
    found = dict[str, str]()
    for name, value in TAG.findall(game.text):
        found.setdefault(name, value.replace('\\"', '"').replace("\\\\", "\\"))
    return found


def hands_read(deal: str) -> dict[str, tuple[str, ...]]:
    """The four hands of a Deal tag."""
    first, _, rest = deal.strip().partition(":")
    told = rest.split()
    if first.upper() not in SEATS or not first or len(told) != 4:
        raise ValueError(f"no deal: {deal}")
    return {after(first.upper(), step): hand_read(it) for step, it in enumerate(told)}


def rows(text: str, first: str) -> Iterator[dict[str, str]]:
    """The rows of a Play section, each with the cards of the seats."""
    row = list[str]()
    for found in TOKEN.finditer(NOISE.sub(" ", text)):
        if found[2] or found[3]:
            break
        row.append(found[1].upper().replace("10", "T"))
        if len(row) == 4:
            yield {after(first, step): it for step, it in enumerate(row) if it != "-"}
            row = []
    if row:
        yield {after(first, step): it for step, it in enumerate(row) if it != "-"}


def play_read(game: Game, board: Board) -> tuple[str, ...]:
    """The cards of the Play section in the order of play, up to the first that is missing."""
    section = re.search(r'^\s*\[Play\s+"([NESW])"\s*\](.*?)(?=^\s*\[|\Z)', game.text, re.M | re.S | re.I)
    cards = list[str]()
    for row in rows(section[2], section[1].upper()) if section else ():
        for _ in range(4):
            turn = position(board, cards).turn
            if turn not in row:
                return tuple(cards)
            cards.append(row[turn])
    return tuple(cards)


def board_read(game: Game) -> Board:
    """The board of a game that alphamu has taken; a ValueError if it isn't one."""
    tags = tags_of(game)
    contract, declarer = tags.get("Contract", "").upper().replace("NT", "N"), tags.get("Declarer", "").upper()
    if not re.fullmatch(r"[1-7][SHDCN]X{0,2}", contract) or len(declarer) != 1 or declarer not in SEATS:
        raise ValueError("no contract")
    need, result = tags.get("EndNeed", ""), tags.get("Result", "")
    shown = {it: tags[it] for it in SHOWN if tags.get(it, "?") not in ("", "?")}
    board = Board(hands_read(tags.get("Deal", "")), declarer, contract, tags.get("EndLead", after(declarer)),
                  (), int(need) if need.isdecimal() else None, int(result) if result.isdecimal() else None, shown)
    return replace(board, play=play_read(game, board))


def layouts_read(text: str) -> list[dict[str, tuple[str, ...]]]:
    """The layouts of a layout file that alphamu has written or taken."""
    lines = [it.strip() for it in text.splitlines()]
    return [hands_read(it[it.index(":") - 1:]) for it in lines if it and not it.startswith("%")]


def deal_tag(hands: Mapping[str, Sequence[str]]) -> str:
    return "N:" + " ".join(written(hands[it]) if hands[it] else "-" for it in SEATS)


def escaped(value: str) -> str:
    return re.sub(r"[\x00-\x1f\x7f]", " ", value).replace("\\", "\\\\").replace('"', '\\"')


def question(at: Position, more: Mapping[str, str] | None = None) -> str:
    """The board after the cards of a position, with the play up to there, as a deal file."""
    board = at.board
    contract = board.contract.replace("N", "NT", 1)
    tags = {**(more or {}), "Deal": deal_tag(board.hands), "Declarer": board.declarer, "Contract": contract}
    if board.need is not None:
        tags |= {"EndNeed": str(board.need), "EndLead": board.lead}
    lines = [f'[{name} "{escaped(value)}"]' for name, value in tags.items()]
    lines.append(f'[Play "{board.lead}"]')
    for trick in at.tricks:
        by = dict(trick)
        lines.append(" ".join(by.get(after(board.lead, step), "-") for step in range(4)))
    return "\n".join([*lines, "*"]) + "\n"


def game_text(board: Board, result: str) -> str:
    """A whole board as a game of a PBN file."""
    tags = {"Event": "?", **board.tags, "Result": result}
    return question(position(board, board.play), tags)
