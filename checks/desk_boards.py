"""A club's file and `.lin` boards for the checks of the desk.

The club's file has the boards of examples/evening, played to the end by the same rules. The `.lin` boards are written here from
deals, auctions and plays that are made by chance, with the marks that BBO writes, in several habits of its programs; each comes with the
board that it means, which the reader of the desk has no part in."""
import os
import random
import sys

sys.dont_write_bytecode = True
TOP = os.path.dirname(os.path.dirname(os.path.abspath(__file__)))
sys.path.insert(0, os.path.join(TOP, "examples", "evening"))
import make

SEATS, PLACES = "NESW", "SWNE"
CALLS = [level + suit for level in "1234567" for suit in "CDHSN"]
MARKS = {"None": "o", "NS": "n", "EW": "e", "All": "b"}


def played_out(chance):
    """A board that is played to its end."""
    table = make.Table(chance)
    for _ in range(13):
        table.play(4)
    return table


def club():
    """The club's file: twenty-three boards that were played, a third of them up to a claim, and one that was passed out."""
    games = []
    for number, (seed, level) in enumerate(make.BOARDS, 1):
        table = played_out(make.Chance(seed))
        if level:
            result = table.taken()
            table.tricks = table.tricks[:9 if number % 3 == 0 else 13]
            lines = make.game(number, table, level)
            at = next(place for place, line in enumerate(lines) if line.startswith("[Play"))
            games.append([*lines[:at], f'[Result "{result}"]', *lines[at:]])
        else:
            games.append(make.head(number, table.dealt) + ['[Contract "Pass"]'])
    return "\n".join(make.with_empty_lines(games)) + "\n"


def auction(chance, level, trump, declarer, dealer):
    """Calls from the dealer on that end in this contract, now and then with lower bids, a double and passes between them."""
    calls, seat = [], dealer
    final = CALLS.index(f"{level}{trump[0]}")
    if chance.random() < 0.4 and final > 6:
        while seat % 2 == declarer % 2:
            calls.append("P")
            seat = (seat + 1) % 4
        other = chance.choice([it for it in CALLS[:5] if CALLS.index(it) < final])
        calls.append(other)
        seat = (seat + 1) % 4
    while seat != declarer:
        calls.append("P")
        seat = (seat + 1) % 4
    calls.append(CALLS[final])
    doubled = chance.choice(["", "", "", "X", "XX"])
    calls += {"": ["P"] * 3, "X": ["X", "P", "P", "P"], "XX": ["X", "XX", "P", "P", "P"]}[doubled]
    return calls, CALLS[final] + doubled


def hand_marks(hand, chance):
    suits = {it: "".join(card[1] for card in hand if card[0] == it) for it in "SHDC"}
    return "".join(suit + "".join(chance.sample(ranks, len(ranks))) for suit, ranks in suits.items())


def marks_of(chance, number, table, calls, dealer, vulnerable, names, claim):
    """The text of a board, and how many cards of its play it has."""
    played = [card for _, trick in table.tricks for card in trick]
    hands = {seat: table.dealt[SEATS.index(seat)] for seat in SEATS}
    deal = [hand_marks(hands[it], chance) for it in PLACES]
    deal[3] *= chance.random() < 0.6
    text = [f"qx|o{number}|"] * (chance.random() < 0.5) + [f"pn|{','.join(names[it] for it in PLACES)}|", "st||"]
    text += [f"md|{PLACES.index(SEATS[dealer]) + 1}{','.join(deal)}|", "rh||" if chance.random() < 0.5 else "sk||", f"ah|Board {number}|", f"sv|{MARKS[vulnerable]}|"]
    for call in calls:
        told = {"P": chance.choice("pP"), "X": chance.choice("dD"), "XX": chance.choice("rR")}.get(call, call)
        alert = chance.random() < 0.15
        text.append(f"mb|{told}{'!' * (alert and chance.random() < 0.5)}|" + "an|weak, 5+ cards|" * alert)
    text.append("pg||")
    for place, card in enumerate(played):
        text.append(f"pc|{chance.choice([str.upper, str.lower])(card)}|")
        text += ["nt|a comment, with pc and md in it|"] * (chance.random() < 0.03) + ["pg||"] * (place % 4 == 3)
    if claim is not None:
        text.append(f"mc|{claim}|")
    return chance.choice(["", "\n", "\r\n"]).join(text) + "pg||"


def lin_board(seed):
    """The text of a `.lin` board and the board that it means, as a plain dictionary."""
    chance = random.Random(seed)
    table = played_out(make.Chance(seed + 1000))
    dealer, level = chance.randrange(4), chance.randint(1, 7)
    vulnerable = chance.choice(list(MARKS))
    calls, contract = auction(chance, level, table.trump, table.declarer, dealer)
    claim = None
    if chance.random() < 0.5:
        claim = table.taken()
        table.tricks = table.tricks[:chance.randint(1, 12)]
        leader, trick = table.tricks[-1]
        table.tricks[-1] = leader, trick[:chance.randint(1, 4)]
    names = {it: chance.choice(["robot", "Ann O'Hara", "<b>x</b>", "Zoë", "~~M9"]) + str(seed) for it in SEATS}
    text = marks_of(chance, seed + 1, table, calls, dealer, vulnerable, names, claim)
    taken = claim if claim is not None else table.taken()
    return text, {"hands": {seat: set(table.dealt[place]) for place, seat in enumerate(SEATS)}, "declarer": SEATS[table.declarer], "contract": contract,
                  "play": [card for _, trick in table.tricks for card in trick], "leaders": [SEATS[leader] for leader, _ in table.tricks], "result": taken,
                  "dealer": SEATS[dealer], "vulnerable": vulnerable, "names": names, "board": str(seed + 1)}


def moment(number, cards, line=()):
    """A board of the club's file before its card of that number, counted from 0, with other cards played from there."""
    seed, level = make.BOARDS[number - 1]
    table = played_out(make.Chance(seed))
    played = [card for _, trick in table.tricks for card in trick][:cards] + list(line)
    table.tricks, leader = [], (table.declarer + 1) % 4
    for place in range(0, len(played), 4):
        trick = played[place:place + 4]
        table.tricks.append((leader, trick))
        leader = (leader + table.winner(trick)) % 4
    return "\n".join(make.game(number, table, level)) + "\n"


def hands_in(text):
    """The hands of the Deal tag of a game, as sets of cards by seat."""
    told = next(line for line in text.splitlines() if line.startswith('[Deal "N:'))[9:-2].split()
    return {seat: {suit + rank for suit, ranks in zip("SHDC", hand.split(".")) for rank in ranks} for seat, hand in zip(SEATS, told)}
