"""What is read of PBN and `.lin` texts, and the rules of play."""
import unittest

from alphamu_desk import lin, pbn
from alphamu_desk.play import Board, equals, following, position, replies, winner

DEAL = "N:A5.K632.KJ5.T642 6.A985.A74.QJ975 Q98742.J4.Q6.AK3 KJT3.QT7.T9832.8"
GAME = f"""% PBN 2.1
[Event "A \\"club\\""]
[Board "12"]
[Deal "{DEAL}"]
[Declarer "S"]
[Contract "3SX"]
[Result "7"]
[Play "W"]
D3 D5 DA D6 {{a comment}}
C8 C2! C5 =1= CA $3
- - - S2
*
"""
LIN = "pn|a,b,c,d|st||md|3S974HAQDKT2CAKJ62,SAQ52HK42DQ94CT84,SK3HT9653DJ87CQ73,|sv|e|ah|Board 7|mb|1C|mb|p|mb|1H!|an|4+|mb|p|mb|1N|mb|p|mb|p|mb|p|" \
      "pg||pc|DQ|nt|oh|pc|D7|pc|d3|pc|DK|pg||pc|CA|mc|7|"


class Pbn(unittest.TestCase):
    def board(self) -> Board:
        return pbn.board_read(next(pbn.games(GAME)))

    def test_board(self) -> None:
        board = self.board()
        self.assertEqual((board.contract, board.trump, board.goal, board.declarer, board.dummy, board.lead), ("3SX", "S", 9, "S", "N", "W"))
        self.assertEqual(board.tags["Event"], 'A "club"')
        self.assertEqual(board.play, ("D3", "D5", "DA", "D6", "C5", "CA", "C8", "C2", "S2"))
        self.assertEqual(board.result, 7)

    def test_question_has_the_rows_by_seat(self) -> None:
        board = self.board()
        text = pbn.question(position(board, board.play[:7]))
        self.assertTrue(text.endswith('[Play "W"]\nD3 D5 DA D6\nC8 - C5 CA\n*\n'), text)
        self.assertIn('[Contract "3SX"]', text)

    def test_question_reads_back(self) -> None:
        board = self.board()
        back = pbn.board_read(next(pbn.games(pbn.question(position(board, board.play), dict(board.tags)))))
        self.assertEqual((back.hands, back.play, back.contract, back.tags), (board.hands, board.play, board.contract, board.tags))

    def test_games_keep_their_lines(self) -> None:
        two = list(pbn.games("\n\n" + GAME + "\n" + GAME))
        self.assertEqual([it.line for it in two], [3, 16])
        self.assertEqual(two[1].at_its_lines().splitlines()[15], "% PBN 2.1")

    def test_faults(self) -> None:
        for text in (GAME.replace("3SX", "Pass"), GAME.replace("A5.K632", "A5.K6Z2"), GAME.replace(DEAL, ""), GAME.replace("D5 DA", "D3 DA")):
            with self.assertRaises(ValueError):
                pbn.board_read(next(pbn.games(text)))

    def test_no_trump_is_written_out(self) -> None:
        board = pbn.board_read(next(pbn.games(GAME.replace("3SX", "3NT"))))
        self.assertIn('[Contract "3NT"]', pbn.question(position(board, [])))

    def test_layouts(self) -> None:
        self.assertEqual(pbn.layouts_read("% x\n\n12 N:2... A... K... 7...\n")[0], {"N": ("S2",), "E": ("SA",), "S": ("SK",), "W": ("S7",)})


class Lin(unittest.TestCase):
    def test_board(self) -> None:
        board = lin.boards(LIN)[0]
        assert board
        self.assertEqual((board.contract, board.declarer, board.lead, board.result), ("1N", "N", "E", 7))
        self.assertEqual(board.play, ("DQ", "D7", "D3", "DK", "CA"))
        self.assertEqual(len(board.hands["E"]), 13)
        self.assertEqual(board.tags, {"Board": "7", "Dealer": "N", "Vulnerable": "EW", "South": "a", "West": "b", "North": "c", "East": "d"})

    def test_players_of_each_board(self) -> None:
        two = lin.boards(LIN + LIN.replace("pn|a,b,c,d|", "pn|e,f,g,h|") + LIN.replace("pn|a,b,c,d|", ""))
        self.assertEqual([it.tags["South"] for it in two if it], ["a", "e", "e"])

    def test_passed_out(self) -> None:
        self.assertEqual(lin.boards(LIN.split("mb|")[0] + "mb|p|mb|p|mb|p|mb|p|"), [None])

    def test_doubles_of_a_lower_bid_are_gone(self) -> None:
        calls = list(lin.calls_of("1H")) + ["X", "2H", "P", "P", "P"]
        self.assertEqual(lin.contract_of(calls, "W"), ("2H", "W"))

    def test_calls_written_together(self) -> None:
        self.assertEqual(list(lin.calls_of("1N!pp2DdRp")), ["1N", "P", "P", "2D", "X", "XX", "P"])

    def test_faults(self) -> None:
        for text in ("", "md|9|", LIN.replace("SAQ52", "SAQ5"), LIN.replace("HAQ", "HAZ"), LIN.replace("pc|D7|", "pc|DQ|")):
            with self.assertRaises(ValueError):
                lin.boards(text)


class Play(unittest.TestCase):
    def test_winner(self) -> None:
        self.assertEqual(winner([("W", "D3"), ("N", "D5"), ("E", "S2"), ("S", "DA")], "S"), "E")
        self.assertEqual(winner([("W", "D3"), ("N", "D5"), ("E", "S2"), ("S", "DA")], "N"), "S")

    def test_following(self) -> None:
        self.assertEqual(following(("SA", "D2", "DK"), "D"), ["D2", "DK"])
        self.assertEqual(following(("SA", "D2"), "H"), ["SA", "D2"])

    def test_turn_and_tricks(self) -> None:
        board = pbn.board_read(next(pbn.games(GAME)))
        at = position(board, board.play[:4])
        self.assertEqual((at.turn, at.won(), at.led), ("E", ["E"], ""))
        at = position(board, board.play)
        self.assertEqual((at.turn, at.led, at.left("N")), ("W", "S", ["SA", "S5", "HK", "H6", "H3", "H2", "DK", "DJ", "CT", "C6", "C4"]))

    def test_equal_cards(self) -> None:
        board = pbn.board_read(next(pbn.games(GAME)))
        at = position(board, board.play[:8])
        self.assertEqual(equals(at, ["S2", "S4", "S7", "S8", "S9", "SQ", "CK", "C3"])[:4], [["S2"], ["S4"], ["S7", "S8", "S9"], ["SQ"]])

    def test_replies(self) -> None:
        board = pbn.board_read(next(pbn.games(GAME)))
        at = position(board, board.play)
        self.assertEqual(replies(at, [{"W": ("SK", "SJ", "H2"), "E": ()}, {"W": ("H2", "D3"), "E": ()}]), {"SJ": 1, "SK": 1, "H2": 1})


if __name__ == "__main__":
    unittest.main()
