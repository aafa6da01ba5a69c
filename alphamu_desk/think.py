"""One question, answered in rounds: each is a process of its own and closer to the truth than the one before.

The first round plans one move, for an answer at once. Then every card is planned, with more and more nodes. The bounds of every round
enclose the truth, so what is shown is where they overlap."""
from __future__ import annotations

import html
import json
import re
import time
from collections.abc import Callable, Iterator, Sequence
from typing import Any

from .jobs import OutOfTime, Refused
from .play import Position, equals

Ask = Callable[[list[str], float], str]
Say = Callable[[dict[str, Any]], None]
# The nodes of the rounds in which every card is planned.
NODES = (10_000, 100_000, 1_000_000, 10_000_000, 100_000_000, 10_000_000_000)
# What the words and the page plan; the seconds that the words may take, and the rounds about a decision of a review.
MOVES, PATIENCE, LONGEST = 3, 5.0, 60.0
# Where a page tells the fact.
DECIDED = re.compile(r"<p>Among these layouts, the line that it keeps makes exactly those in which (.*?)\.?</p>", re.S)


def ladder(steps: Sequence[int] = NODES) -> Iterator[list[str]]:
    """What the rounds ask for, one after another. If one process tells all rounds, this is the place."""
    yield ["--moves", "1"]
    for nodes in steps:
        yield ["--nodes", str(nodes)]


def overlap(card: dict[str, Any], before: dict[str, Any] | None) -> dict[str, Any]:
    """A card of a round with the bounds of the rounds before it. `may` is a vector of layouts that may be made, `sure` of those that are."""
    least, most = card["least"], card["most"]
    if before:
        least, most = max(least, before["least"]), min(most, before["most"])
    told = {"card": card["card"], "least": least, "most": most, "sampled": card["sampled"], "final": least == most}
    told["may"] = before["may"] if before else card["vector"]
    return told


def rounds_of(at: Position, words: list[str], ask: Ask, end: float, steps: Sequence[int] = NODES) -> Iterator[dict[str, Any]]:
    """The rounds, each as soon as it is there, until one settles it. Raises OutOfTime at the end."""
    known = dict[str, dict[str, Any]]()
    for more in ladder(steps):
        answer = json.loads(ask([*words, *more], end - time.monotonic()))
        now = dict[str, dict[str, Any]]()
        for card in answer["cards"]:
            it = now[card["card"]] = overlap(card, known.get(card["card"]))
            if answer["moves"] != "all":
                it["may"] = card["vector"]
            elif card["final"]:
                it["sure"] = card["vector"]
        known = now
        groups = equals(at, list(now)) if "equals" not in answer["cards"][0] else groups_of(answer["cards"])
        told = {"moves": answer["moves"], "named": answer["named"], "weight": answer["weight"], "cards": list(now.values()), "groups": groups}
        told["settled"] = is_settled(now, answer["named"], groups)
        yield told
        if told["settled"] or all(it["final"] for it in answer["cards"]):
            return


def groups_of(cards: list[dict[str, Any]]) -> list[list[str]]:
    """The groups of equal cards, if the program says them."""
    groups = list[list[str]]()
    for card in cards:
        if not any(card["card"] in it for it in groups):
            groups.append(sorted({card["card"], *card["equals"]}, key=[it["card"] for it in cards].index))
    return groups


def is_settled(cards: dict[str, dict[str, Any]], named: str, groups: list[list[str]]) -> bool:
    """Whether more thought changes nothing: the named card is final, and no other can make more."""
    best = cards[named]
    return best["final"] and all(it["final"] or it["most"] <= best["least"] for it in cards.values())


def line_of(text: str, named: list[str]) -> tuple[list[str], str]:
    """The lines of the heaviest strategy that begins with one of these cards, and its vector if none of the others is as heavy before
    it or heavier; both empty if no strategy does."""
    parts, best, heaviest = re.split(r"^(?=vector )", text, flags=re.M)[1:], -1, -1
    found, vector = list[str](), ""
    for part in parts:
        head, *lines = part.splitlines()
        begins, weight = re.match(r"Now .*?(?:lead|play) ([SHDC][2-9TJQKA])", lines[0]) if lines else None, int(head.split()[-1])
        if begins and begins[1] in named and weight > best:
            best, found, vector = weight, lines, head.split()[1] if weight > heaviest else ""
        elif weight > best:
            vector = ""
        heaviest = max(heaviest, weight)
    return found, vector


def fact_of(page: str) -> str:
    """The fact about the defenders' hands that decides which layouts the best line makes, in the words of a page; "" if it has none."""
    found = DECIDED.search(page)
    return html.unescape(re.sub(r"<[^>]*>", "", found[1])).strip() if found else ""


def tell(files: list[str], ask: Ask, last: dict[str, Any], say: Say) -> None:
    """Says the line in words, and what decides it if the line makes just the layouts that the named card is sure to make."""
    named = next(it for it in last["cards"] if it["card"] == last["named"])
    try:
        lines, vector = line_of(ask(["--job", "words", *files, "--moves", str(MOVES)], PATIENCE), next(it for it in last["groups"] if last["named"] in it))
        say({"words": {"moves": MOVES, "lines": lines}})
        if vector and vector == named.get("sure"):
            say({"fact": fact_of(ask(["--job", "page", *files, "--moves", str(MOVES)], PATIENCE))})
    except (OutOfTime, Refused):
        pass


def last_round(at: Position, files: list[str], nodes: int, ask: Ask) -> dict[str, Any]:
    """The last round with at most this many nodes, or the last that ended within LONGEST seconds."""
    last = dict[str, Any]()
    try:
        for last in rounds_of(at, words_for(files), ask, time.monotonic() + LONGEST, (nodes,)):
            pass
    except OutOfTime:
        if not last:
            raise
    return last


def words_for(files: list[str]) -> list[str]:
    return ["--job", "cards", *files, "--form", "json"]


def think(at: Position, files: list[str], ask: Ask, limit: float, say: Say) -> None:
    """Says each round, then the line in words, and how it ended: `settled`, or `spent` if time was up."""
    end, last = time.monotonic() + limit, dict[str, Any]()
    try:
        for last in rounds_of(at, words_for(files), ask, end):
            say({"round": last})
        state = "settled" if last["settled"] else "spent"
    except OutOfTime:
        state = "spent"
    if last:
        say({"state": state})
        tell(files, ask, last, say)
    say({"end": state})
