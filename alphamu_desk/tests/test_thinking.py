"""How rounds are put together, what ends a question, and what is taken from the program's texts."""
import json
import os
import stat
import subprocess
import tempfile
import time
import unittest
from typing import Any

from alphamu_desk import pbn, review, think
from alphamu_desk.jobs import Jobs, OutOfTime, Refused, Waiter
from alphamu_desk.play import Position, position
from alphamu_desk.tests.test_reading import GAME


def at(number: int) -> Position:
    board = pbn.board_read(next(pbn.games(GAME)))
    return position(board, board.play[:number])


def card(name: str, least: int, most: int, vector: str = "1111", **more: Any) -> dict[str, Any]:
    return {"card": name, "least": least, "most": most, "sampled": most, "final": least == most, "vector": vector, **more}


def answer(moves: object, named: str, *cards: dict[str, Any]) -> str:
    return json.dumps({"cards": cards, "layouts": 4, "moves": moves, "named": named, "weight": 4})


class Rounds(unittest.TestCase):
    def told(self, *answers: str) -> list[dict[str, Any]]:
        left = list(answers)
        return list(think.rounds_of(at(8), [], lambda words, seconds: left.pop(0), time.monotonic() + 9))

    def test_bounds_overlap_and_it_stops_once_settled(self) -> None:
        told = self.told(answer(1, "SQ", card("SQ", 1, 3), card("CK", 0, 3)), answer("all", "SQ", card("SQ", 0, 4), card("CK", 2, 2, "0011")),
                         answer("all", "SQ", card("SQ", 3, 3, "0111"), card("CK", 2, 2, "0011")), "never asked")
        self.assertEqual([[(it["least"], it["most"]) for it in each["cards"]] for each in told], [[(1, 3), (0, 3)], [(1, 3), (2, 2)], [(3, 3), (2, 2)]])
        self.assertEqual([it["settled"] for it in told], [False, False, True])
        self.assertEqual([told[1]["cards"][1].get("sure"), told[1]["cards"][0].get("sure"), told[2]["cards"][0]["sure"]], ["0011", None, "0111"])

    def test_settled_although_others_are_open(self) -> None:
        self.assertTrue(self.told(answer(1, "SQ", card("SQ", 3, 3), card("CK", 0, 3)))[0]["settled"])
        self.assertFalse(self.told(answer(1, "SQ", card("SQ", 2, 2), card("CK", 0, 3)), answer("all", "SQ", card("SQ", 2, 2), card("CK", 1, 1)))[0]["settled"])

    def test_groups_by_the_program(self) -> None:
        cards = [card("S7", 1, 1, equals=["S8"]), card("S8", 1, 1, equals=["S7"]), card("CK", 0, 0, equals=[])]
        self.assertEqual(self.told(answer(1, "S7", *cards))[0]["groups"], [["S7", "S8"], ["CK"]])

    def test_line_and_fact(self) -> None:
        text = "alphamu words 1\nvector 10 count 1\nNow (made in 1): lead S2 from hand.\n  If\nvector 01 count 3\nNow (made in 2): lead CK from hand.\n"
        self.assertEqual(think.line_of(text, ["CK"]), (["Now (made in 2): lead CK from hand."], "01"))
        self.assertEqual(think.line_of(text, ["S2"]), (["Now (made in 1): lead S2 from hand.", "  If"], ""))
        self.assertEqual(think.line_of(text, ["HA"]), ([], ""))
        page = "<p>Among these layouts, the line that it keeps makes exactly those in which East holds <span class='s'>&#9824;</span>K.</p>"
        self.assertEqual((think.fact_of(page), think.fact_of("<p>x</p>")), ("East holds \u2660K", ""))


class Review(unittest.TestCase):
    def test_cost_is_a_range(self) -> None:
        told = review.cost_of(at(8), {"cards": [card("S2", 1, 3), card("SQ", 2, 4)], "named": "SQ", "weight": 4})
        self.assertEqual((told["cost_from"], told["cost_to"], told["number"], told["trick"], told["seat"]), (0, 3, 9, 3, "S"))
        told = review.cost_of(at(8), {"cards": [card("S2", 1, 1), card("SQ", 3, 3)], "named": "SQ", "weight": 4})
        self.assertEqual((told["cost_from"], told["cost_to"]), (2, 2))

    def test_csv(self) -> None:
        told = review.cost_of(at(8), {"cards": [card("S2", 1, 1), card("SQ", 3, 3)], "named": "SQ", "weight": 4})
        self.assertEqual(review.as_csv({3: ("12", [told])}).splitlines()[1], "3,12,9,3,S,S2,SQ,1,1,3,3,4,2,2")


class Work(unittest.TestCase):
    """Processes, by a program of the shell's in place of alphamu_study."""

    def jobs(self, script: str) -> Jobs:
        room = tempfile.TemporaryDirectory()
        self.addCleanup(room.cleanup)
        path = os.path.join(room.name, "program")
        with open(path, "w", encoding="utf-8") as file:
            file.write(f"#!/bin/sh\n{script}\n")
        os.chmod(path, stat.S_IRWXU)
        jobs = Jobs([path], room.name)
        jobs.ready.set()
        return jobs

    def test_answer_and_refusal(self) -> None:
        self.assertEqual(self.jobs('echo "$1"').ask(["x"], Waiter()), "x\n")
        with self.assertRaises(Refused) as why:
            self.jobs("echo 'study: notice' >&2; echo 'alphamu: --west: no' >&2; exit 2").ask([], Waiter())
        self.assertEqual((why.exception.line, why.exception.status), ("--west: no", 2))

    def test_time_and_what_it_leaves(self) -> None:
        jobs = self.jobs("sleep 987 & echo $! >&2; wait")
        heard = list[str]()
        with self.assertRaises(OutOfTime):
            jobs.ask([], Waiter(), 0.5, heard.append)
        time.sleep(0.1)
        state = subprocess.run(["ps", "-o", "stat=", "-p", heard[0]], capture_output=True, text=True, check=False).stdout.strip()
        self.assertTrue(state == "" or state.startswith("Z"), state)
        self.assertEqual(jobs.running, set())


if __name__ == "__main__":
    unittest.main()
