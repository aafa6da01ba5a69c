"""What each card of declarer's side cost, with layouts that are drawn anew at each decision."""
from __future__ import annotations

import csv
import io
import os
from collections.abc import Callable, Iterator
from concurrent.futures import ThreadPoolExecutor
from typing import Any

from .play import Board, Position, equals, following, position

# Decisions at work at a time, and how many positions the search of a card may enter.
WORKERS, NODES = max(1, (os.cpu_count() or 1) - 1), 20_000
FIELDS = ("game", "board", "number", "trick", "seat", "played", "named", "played_least", "played_most", "named_least", "named_most", "layouts",
          "cost_from", "cost_to")


def decisions(board: Board) -> Iterator[Position]:
    """The moments of the play at which declarer's side had two cards that aren't equal."""
    for number in range(len(board.play)):
        at = position(board, board.play[:number])
        if at.turn not in board.defenders and len(equals(at, following(at.left(at.turn), at.led))) > 1:
            yield at


def cost_of(at: Position, answer: dict[str, Any]) -> dict[str, Any]:
    """A decision and what the card played cost, at least and at most, by the last round about it."""
    number = len(at.cards)
    cards = {it["card"]: it for it in answer["cards"]}
    played, named = cards[at.board.play[number]], cards[answer["named"]]
    low = max(0, max(it["least"] for it in cards.values()) - played["most"])
    high = max(0, max(it["most"] for it in cards.values()) - played["least"])
    return {"number": number + 1, "trick": number // 4 + 1, "seat": at.turn, "played": played["card"], "named": named["card"],
            "played_least": played["least"], "played_most": played["most"], "named_least": named["least"], "named_most": named["most"],
            "layouts": answer["weight"], "cost_from": low, "cost_to": high}


def review(board: Board, ask: Callable[[Position], dict[str, Any]], say: Callable[[dict[str, Any], int, int], None]) -> list[dict[str, Any]]:
    """Says each decision with its number and how many there are, and returns them all."""
    all_of, found = list(decisions(board)), list[dict[str, Any]]()
    with ThreadPoolExecutor(WORKERS) as pool:
        try:
            for told in pool.map(lambda at: cost_of(at, ask(at)), all_of):
                found.append(told)
                say(told, len(found), len(all_of))
        finally:
            pool.shutdown(cancel_futures=True)
    return found


def first_costly(told: list[dict[str, Any]]) -> dict[str, Any] | None:
    """The first decision that cost something for certain."""
    return next((it for it in told if it["cost_from"] > 0), None)


def as_csv(reviews: dict[int, tuple[str, list[dict[str, Any]]]]) -> str:
    """The decisions of some games, by their number, with the number of their board."""
    out = io.StringIO()
    writer = csv.DictWriter(out, FIELDS, lineterminator="\n")
    writer.writeheader()
    for game, (board, told) in sorted(reviews.items()):
        writer.writerows({"game": game, "board": board, **it} for it in told)
    return out.getvalue()
