"""What the desk holds, and its answers to the page: the files that the user opened, their boards, and the layouts drawn."""
from __future__ import annotations

import os
import re
import threading
from collections import OrderedDict
from collections.abc import Callable
from dataclasses import dataclass, field
from typing import Any

from . import lin, pbn, review, think
from .jobs import Jobs, Refused, Told, Waiter
from .play import SEATS, Board, Position, after, hand_read, position, replies

# Characters of a file, boards of one, files and answers that are kept, and characters of a condition.
MOST_TEXT, BOARDS, FILES, ANSWERS, LETTERS = 1 << 20, 256, 64, 512, 200
# How the launcher says how far a program is compiled.
COMPILING = "study: compiling: "
# How the desk is called, in a repository and from a package.
COMMAND = "./desk" if os.path.exists(os.path.join(os.path.dirname(os.path.dirname(os.path.abspath(__file__))), "desk")) else "alphamu_desk"
Say = Callable[[dict[str, Any]], None]


class Bad(ValueError):
    """A question that makes no sense."""


@dataclass
class Entry:
    """A board of a file, or why it has none; the text in which alphamu is asked whether it takes it; and its review."""
    board: Board | None
    fault: str
    text: str
    told: list[dict[str, Any]] | None = None


@dataclass
class File:
    name: str
    entries: list[Entry]


@dataclass
class Drawn:
    """Layouts, the file that has them, and of how many they were drawn."""
    text: str
    fit: int
    layouts: list[dict[str, tuple[str, ...]]] = field(default_factory=list)


def text_of(asked: dict[str, Any], name: str, most: int, default: str | None = None) -> str:
    value = asked.get(name, default)
    if not isinstance(value, str) or len(value) > most or "\0" in value:
        raise Bad(f"{name} has to be a text of at most {most} characters")
    return value.encode(errors="replace").decode()


def number_of(asked: dict[str, Any], name: str, low: int, high: int, default: int | None = None) -> int:
    value = asked.get(name, default)
    if not isinstance(value, int) or isinstance(value, bool) or not low <= value <= high:
        raise Bad(f"{name} has to be a whole number from {low} to {high}")
    return value


def entry_of_game(game: pbn.Game) -> Entry:
    try:
        return Entry(pbn.board_read(game), "", game.at_its_lines())
    except ValueError as why:
        return Entry(None, str(why), game.at_its_lines())


def entry_of_lin(board: Board | None) -> Entry:
    return Entry(board, "" if board else "passed out", pbn.question(position(board, board.play)) if board else "")


def read(name: str, text: str) -> File:
    """A file of that text, PBN or `.lin`. A ValueError says what is wrong with a `.lin` text."""
    if len(text) > MOST_TEXT:
        raise Bad("the file is too long: it may have 1,048,576 characters")
    entries = [entry_of_lin(it) for it in lin.boards(text)] if lin.is_lin(text) else [entry_of_game(it) for it in pbn.games(text)]
    if len(entries) > BOARDS:
        raise Bad(f"the file has more than {BOARDS} boards")
    return File(name, entries or [Entry(None, "no board", text)])


class Desk:
    def __init__(self, jobs: Jobs) -> None:
        self.jobs, self.lock, self.count = jobs, threading.Lock(), 0
        self.files, self.answers = OrderedDict[str, File](), OrderedDict[tuple[str, ...], str]()

    def take(self, file: File) -> str:
        """Keeps a file under a number, which it returns. The one that was used longest ago may have to go."""
        with self.lock:
            self.count += 1
            self.files[str(self.count)] = file
            while len(self.files) > FILES:
                self.files.popitem(last=False)
            return str(self.count)

    def file(self, asked: dict[str, Any]) -> File:
        number = text_of(asked, "file", 20)
        with self.lock:
            if number not in self.files:
                raise Bad("this file isn't open any more: open it again")
            self.files.move_to_end(number)
            return self.files[number]

    def entry(self, asked: dict[str, Any], waiter: Waiter) -> Entry:
        """The board asked for; alphamu's own refusal if it doesn't take it."""
        file = self.file(asked)
        entry = file.entries[number_of(asked, "game", 1, len(file.entries)) - 1]
        if entry.board is None:
            if entry.text:
                self.judge(entry, waiter)
            raise Bad(entry.fault)
        return entry

    def judge(self, entry: Entry, waiter: Waiter, told: Told | None = None) -> None:
        """Raises alphamu's refusal of a board, if it has one."""
        try:
            self.ask(["--job", "cards", f"--deal={self.jobs.file(entry.text, '.pbn')}", f"--layouts={self.jobs.file('', '.lay')}"], waiter, 60, told)
        except Refused as why:
            if why.status in (4, 10):
                raise

    def place(self, asked: dict[str, Any], waiter: Waiter) -> tuple[Entry, Position]:
        """The moment asked for: the board's play up to `at`, and then the cards of `line`."""
        entry = self.entry(asked, waiter)
        assert entry.board
        line = asked.get("line", [])
        if not isinstance(line, list) or not all(isinstance(it, str) and re.fullmatch("[SHDC][2-9TJQKA]", it) for it in line):
            raise Bad("line has to be a list of cards")
        at = number_of(asked, "at", 0, len(entry.board.play), 0)
        return entry, position(entry.board, [*entry.board.play[:at], *line])

    def ask(self, words: list[str], waiter: Waiter, seconds: float, told: Told | None = None, is_behind: bool = False) -> str:
        """The program's answer. The same words have the same answer, since the names of files are made from what is in them."""
        key = tuple(words)
        with self.lock:
            if key in self.answers:
                self.answers.move_to_end(key)
                return self.answers[key]
        answer = self.jobs.ask(words, waiter, seconds, told or (lambda line: None), is_behind)
        with self.lock:
            self.answers[key] = answer
            while len(self.answers) > ANSWERS:
                self.answers.popitem(last=False)
        return answer

    def drawn(self, at: Position, asked: dict[str, Any], waiter: Waiter, told: Told | None = None, is_behind: bool = False) -> Drawn:
        """Layouts by chance, from all that the play up to here and the conditions allow."""
        words = ["--job", "draw", f"--deal={self.jobs.file(pbn.question(at), '.pbn')}", f"--draw={number_of(asked, 'draw', 1, 256, 20)}"]
        words.append(f"--seed={number_of(asked, 'seed', 0, 2**64 - 1, 1)}")
        for seat, name in zip(SEATS, ("north", "east", "south", "west")):
            words += [f"--{name}={it}" for it in text_of(asked, name, LETTERS, "").split(" or ") if it.strip()]
        text = self.ask(words, waiter, 600, told, is_behind)
        fit = re.match(r"% \d+ of (\d+) layouts", text)
        return Drawn(text, int(fit[1]) if fit else 0, pbn.layouts_read(text))

    def files_of(self, at: Position, drawn: Drawn) -> list[str]:
        return [f"--deal={self.jobs.file(pbn.question(at), '.pbn')}", f"--layouts={self.jobs.file(drawn.text, '.lay')}"]

    # The answers to the page, by the name of the address.

    def open(self, asked: dict[str, Any], waiter: Waiter) -> dict[str, Any]:
        if "file" in asked:
            return self.listed(text_of(asked, "file", 20), self.file(asked), waiter)
        file = read(text_of(asked, "name", 300, "pasted text"), text_of(asked, "text", MOST_TEXT))
        return self.listed("", file, waiter)

    def typed(self, asked: dict[str, Any], waiter: Waiter) -> dict[str, Any]:
        """A board whose hands are typed in; hands left empty are hidden."""
        told = {seat: text_of(asked, seat, 40, "").strip().replace("10", "T") for seat in SEATS}
        contract, declarer = text_of(asked, "contract", 5).strip().upper().replace("NT", "N"), text_of(asked, "declarer", 1).upper()
        if not re.fullmatch(r"[1-7][SHDCN]X{0,2}", contract) or declarer not in SEATS or not declarer:
            raise Bad("the contract has to be a level and a suit, as 4S, 3NT or 5DX")
        hands = {seat: hand_read(it.replace(" ", ".") or "-") for seat, it in told.items()}
        return self.listed("", read("typed in", pbn.game_text(Board(hands, declarer, contract, after(declarer)), "?")), waiter)

    def listed(self, number: str, file: File, waiter: Waiter) -> dict[str, Any]:
        """A file, which is kept if it has no number yet, and its boards; alphamu's refusal if there is none at all."""
        if not any(it.board for it in file.entries):
            first = next((it for it in file.entries if it.text), None)
            if first:
                self.judge(first, waiter)
            raise Bad(file.entries[0].fault)
        boards = [{"game": game, "fault": it.fault, **(seen(it) if it.board else {})} for game, it in enumerate(file.entries, 1)]
        return {"file": number or self.take(file), "name": file.name, "boards": boards, "command": COMMAND}

    def position(self, asked: dict[str, Any], waiter: Waiter) -> dict[str, Any]:
        entry, at = self.place(asked, waiter)
        board, won = at.board, at.won()
        ours = sum(it not in board.defenders for it in won)
        whole = position(board, board.play)
        return {**seen(entry), "turn": at.turn, "tricks": at.tricks, "winners": won, "won": ours, "lost": len(won) - ours, "goal": board.goal,
                "hands": {it: at.left(it) for it in SEATS}, "count": {it: board.length - sum(s == it for t in at.tricks for s, _ in t) for it in SEATS},
                "whole": whole.tricks, "whole_winners": whole.won(), "defenders": board.defenders, "dummy": board.dummy, "lead": board.lead,
                "review": entry.told, "first": review.first_costly(entry.told or [])}

    def think(self, asked: dict[str, Any], waiter: Waiter, say: Say) -> None:
        entry, at = self.place(asked, waiter)
        limit = number_of(asked, "limit", 1, 3600, 10)

        def told(line: str) -> None:
            if line.startswith(COMPILING):
                say({"notice": line.removeprefix(COMPILING)})
        self.judge(entry, waiter, told)
        if not at.turn:
            return say({"end": "over"})
        drawn = self.drawn(at, asked, waiter, told)
        gone = set(at.cards)
        shown = [{it: [card for card in layout[it] if card not in gone] for it in at.board.defenders} for layout in drawn.layouts]
        say({"drawn": {"fit": drawn.fit, "layouts": shown, "unproved": self.jobs.is_unproved}})
        if at.turn in at.board.defenders:
            say({"replies": replies(at, drawn.layouts)})
            return say({"end": "defender"})
        think.think(at, self.files_of(at, drawn), lambda words, seconds: self.ask(words, waiter, max(0.0, seconds)), limit, say)

    def review(self, asked: dict[str, Any], waiter: Waiter, say: Say) -> None:
        """Reviews the games asked for, in order, and says each decision, and how far it is."""
        file = self.file(asked)
        games = asked.get("games")
        if not isinstance(games, list) or not all(isinstance(it, int) and 1 <= it <= len(file.entries) for it in games):
            raise Bad("games has to be a list of numbers")
        of = [it for it in games if file.entries[it - 1].board]
        for done, game in enumerate(of):
            entry = file.entries[game - 1]
            assert entry.board

            def ask(at: Position) -> dict[str, Any]:
                files = self.files_of(at, self.drawn(at, asked, waiter, None, True))
                return think.last_round(at, files, review.NODES, lambda words, seconds: self.ask(words, waiter, seconds, None, True))

            def heard(told: dict[str, Any], number: int, count: int) -> None:
                say({"game": game, "decision": told, "part": (done + number / count) / len(of)})
            try:
                self.judge(entry, waiter)
                entry.told = review.review(entry.board, ask, heard)
                say({"game": game, "review": entry.told, "first": review.first_costly(entry.told)})
            except Refused as why:
                say({"game": game, "refused": why.line})
        say({"end": "reviewed"})

    def keep(self, asked: dict[str, Any], waiter: Waiter) -> dict[str, Any]:
        """A file to save: `page`, `pbn`, `layouts` or `csv`."""
        kind = text_of(asked, "kind", 10)
        if kind == "csv":
            file = self.file(asked)
            told = {game: ((it.board.tags if it.board else {}).get("Board", ""), it.told) for game, it in enumerate(file.entries, 1) if it.told is not None}
            return {"name": "review.csv", "type": "text/csv", "text": review.as_csv({game: (board, it) for game, (board, it) in told.items() if it is not None})}
        entry, at = self.place(asked, waiter)
        if kind == "pbn":
            tags = {"Event": "?", **at.board.tags, "Result": "?" if at.turn else str(sum(it not in at.board.defenders for it in at.won()))}
            return {"name": "board.pbn", "type": "text/plain", "text": pbn.question(at, tags)}
        drawn = self.drawn(at, asked, waiter)
        if kind == "layouts":
            return {"name": "layouts.lay", "type": "text/plain", "text": drawn.text}
        if kind != "page":
            raise Bad("kind has to be page, pbn, layouts or csv")
        words = ["--job", "page", *self.files_of(at, drawn), "--moves", str(think.MOVES)]
        return {"name": "page.html", "type": "text/html", "text": self.ask(words, waiter, 60)}


def seen(entry: Entry) -> dict[str, Any]:
    """What a list of boards shows of one."""
    board = entry.board
    assert board
    return {"board": board.tags.get("Board", ""), "contract": board.contract, "declarer": board.declarer, "result": board.result, "goal": board.goal,
            "tags": dict(board.tags), "length": len(board.play), "play": list(board.play), "start": board.start}
