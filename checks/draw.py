#!/usr/bin/env python3
"""draw.py [--jobs N] [--seconds N] [PROGRAM]

Compares the layouts that alphamu_study draws with a second reading of the definitions (drawing.py). If you name no program it is that of
cases.py. Boards are whole deals by chance, cut after some cards, with conditions that speak of both defenders.

- The count in the first line must be that of drawing.py, by sums over the suits, which must also be that of all layouts one by one if
  the play allows at most MOST_LISTED. The layouts drawn must be as many as are asked for, different, in order and among those that fit;
  they are all that fit, byte for byte, if these are few.
- `list` must write the same layouts as a draw without conditions, byte for byte.
- Over SEEDS seeds each layout of an ending must be drawn about as often as each other: within SIGMAS standard deviations.
- The same words must give the same bytes again, and `cards`, `words`, `lines` and `page` those that they give for the file drawn.

Boards on which the play allows more than MOST_UNPROVED layouts are left to the proved program, which counts faster. Prints what
differs. The exit status is 0 only if nothing does."""
import math
import os
import random
import subprocess
import sys
import tempfile
from collections import Counter
from concurrent.futures import ProcessPoolExecutor

sys.dont_write_bytecode = True
import cases
import drawing
import reading
from playing import RANKS, SUITS, legal, name_of, winner_of

BOARDS, WHOLE, ENDINGS, SEEDS, SIGMAS = 30, 3, 10, 500, 6
MOST_LISTED, MOST_UNPROVED, MOST_DRAWN = 20_000, 50_000, 256
NAMES = ("north", "east", "south", "west")
TELLS = (["cards"], ["cards", "--form", "csv"], ["cards", "--form", "json"], ["words"], ["lines"], ["page"])


# Boards.

class Deal:
    """A whole deal of which some cards were played: its file, its hands from declarer on, and the board as it is read."""

    def __init__(self, rng, played, is_ours=False):
        pack = rng.sample(range(52), 52)
        self.declarer, self.lead = rng.randrange(4), 1
        self.hands = [frozenset(pack[at::4]) for at in range(4)]
        self.trump, self.rows = rng.randrange(5), []
        self.play(rng, played, is_ours)
        self.text = self.file_text()
        self.board = reading.board_of(reading.games_read(self.text)[0])

    def play(self, rng, played, is_ours):
        """Plays this many cards, and on to a turn of declarer's side if it must be one."""
        hands, leader, trick = list(map(set, self.hands)), self.lead, []
        while played > 0 or (is_ours and (leader + len(trick)) % 2):
            seat = (leader + len(trick)) % 4
            card = rng.choice(legal(hands[seat], trick))
            hands[seat].remove(card)
            if not trick:
                self.rows.append({})
            self.rows[-1][seat] = card
            trick.append((seat, card))
            if len(trick) == 4:
                leader, trick = winner_of(trick, self.trump), []
            played -= 1

    def file_text(self):
        turned = [self.hands[(at - self.declarer) % 4] for at in range(4)]
        lines = [b'[Deal "N:%s"]' % b" ".join(map(reading.hand_text, turned)), b'[Declarer "%s"]' % self.place(0),
                 b'[Contract "3%s"]' % (b"NT" if self.trump == 4 else SUITS[self.trump:self.trump + 1])]
        if self.rows:
            lines.append(b'[Play "%s"]' % self.place(self.lead))
        for row in self.rows:
            seats = [(self.lead + at) % 4 for at in range(4)]
            lines.append(b" ".join(name_of(row[seat]) if seat in row else b"-" for seat in seats))
        return b"".join(line + b"\n" for line in [*lines, *([b"*"] if self.rows else [])])

    def place(self, seat):
        return NAMES[(self.declarer + seat) % 4][:1].upper().encode()


def term_about(rng, hand):
    """A term that the hand meets, most often."""
    kind, suit = rng.randrange(7), rng.randrange(4)
    length = sum(card // 13 == suit for card in hand)
    word = drawing.SUIT_WORDS[suit].decode()
    points = sum(map(drawing.points_of, hand))
    card = name_of(rng.choice(sorted(hand))).decode()
    is_balanced = sorted(drawing.Hand(hand).lengths) in drawing.SHAPES
    return (f"{max(0, points - rng.randrange(6))}-{points + rng.randrange(6)} hcp", f"{max(0, points - 2)}+ hcp", f"{max(0, length - 1)}+ {word}",
            f"{max(0, length - 1)}-{length + 1} {word}", f"holds {card}", f"lacks {SUITS.decode()[suit]}{RANKS.decode()[rng.randrange(13)]}",
            "balanced" if is_balanced else f"holds {card}")[kind]


def conditions_by(rng, deal):
    """Words with conditions, and the pair of lists that they mean."""
    words, both = [], ([], [])
    for seat in (1, 3):
        for _ in range(rng.choice((0, 1, 1, 2))):
            text = ", ".join(term_about(rng, deal.hands[seat]) for _ in range(rng.randrange(1, 4)))
            words += [f"--{NAMES[(deal.declarer + seat) % 4]}", text]
            both[seat // 2].append(drawing.Condition(text.encode()))
    return words, both


# What the program writes.

class Room:
    """A folder with a deal file, for questions about it."""

    def __init__(self, program, folder, deal, seconds):
        self.program, self.folder, self.seconds = program, folder, seconds
        self.write("deal.pbn", deal.text)

    def write(self, name, text):
        with open(os.path.join(self.folder, name), "wb") as file:
            file.write(text)

    def ask(self, job, *words, program=None):
        ran = subprocess.run([program or self.program, "--job", *job, "--deal", "deal.pbn", *words], cwd=self.folder, stdin=subprocess.DEVNULL,
                             capture_output=True, timeout=self.seconds, check=False)
        return ran.stdout, ran.stderr, ran.returncode


def about_drawn(fitting, amount, seed, found):
    """What is wrong with a draw of this many layouts, if anything."""
    board, count = fitting.board, fitting.count()
    layouts = fitting.layouts() if fitting.divisions() <= MOST_LISTED else None
    if layouts is not None and len(layouts) != count:
        return f"the second reading counts {count} layouts, and {len(layouts)} one by one"
    if count == 0:
        return None if found == (b"", b"alphamu: 0 layouts fit\n", 12) else f"no layout fits, and it answers {found[1:]}"
    text, line, status = found
    if status or text.split(b"\n")[0] + b"\n" != drawing.head_line(min(amount, count), count, seed):
        return f"status {status}, {line}, and the first line is {text[:90]}, of {count} that fit"
    if layouts is not None and count <= amount:
        return None if text == drawing.file_text(board, layouts, count, seed) else "the file isn't that of all that fit"
    try:
        drawn = reading.layouts_of(text, board)
    except reading.Refusal as refusal:
        return f"the file is refused: {refusal.answer[2]}"
    if len(drawn.layouts) != min(amount, count) or drawn.dropped:
        return f"{len(drawn.layouts)} layouts are kept, {len(drawn.dropped)} dropped"
    if not all(fitting.fits(*map(drawing.Hand, it)) for it in drawn.layouts):
        return "a layout doesn't fit"
    played = {card for _, card in board.plays}
    keys = [sorted(left - played) for left, _ in drawn.layouts]
    if any(key >= later for key, later in zip(keys, keys[1:])):
        return "the layouts aren't different and in order"
    return None if text == drawing.file_text(board, drawn.layouts, count, seed) else "the file isn't in the form of a layout file"


# The trials. Each is named by its number, and says what is wrong.

def counted(given, number):
    """A board with conditions; the first ones before any card is played."""
    program, is_proved, seconds = given
    rng = random.Random(f"counted {number}")
    deal = Deal(rng, 0 if number < WHOLE else rng.randrange(14, 41))
    words, both = conditions_by(rng, deal)
    fitting, amount, seed = drawing.Fitting(deal.board, both), rng.choice((1, 20, MOST_DRAWN)), rng.randrange(2 ** 64)
    if not is_proved and fitting.divisions() > MOST_UNPROVED:
        return LEFT_OUT
    with tempfile.TemporaryDirectory() as folder:
        asked = (["draw"], "--draw", str(amount), "--seed", str(seed), *words)
        room = Room(program, folder, deal, seconds)
        found = room.ask(*asked)
        wrong = about_drawn(fitting, amount, seed, found)
        if not wrong and number % 3 == 0 and room.ask(*asked) != found:
            wrong = "the same words give other bytes"
    return wrong and f"{wrong}: {asked}\n{deal.text.decode()}"


def listed(given, number):
    """A draw without conditions of a late moment, against `list`."""
    program, _, seconds = given
    rng = random.Random(f"listed {number}")
    deal = Deal(rng, rng.randrange(33, 48))
    fitting = drawing.Fitting(deal.board)
    with tempfile.TemporaryDirectory() as folder:
        room = Room(program, folder, deal, seconds)
        lines, _, status = room.ask(["list"], program=cases.PROGRAM)
        drawn, _, _ = room.ask(["draw"], "--draw", str(MOST_DRAWN))
    if status:
        return None if fitting.count() > MOST_DRAWN else f"`list` ends with {status}\n{deal.text.decode()}"
    same = drawn == drawing.head_line(fitting.count(), fitting.count(), 1) + lines
    return None if same else f"`list` writes other layouts\n{deal.text.decode()}"


def told(given, number):
    """The texts from a draw, against those from the file of the draw."""
    program, _, seconds = given
    rng = random.Random(f"told {number}")
    deal = Deal(rng, 35, is_ours=True)
    while deal.board.tricks - len(deal.board.plays) // 4 < 2:
        deal = Deal(rng, 35, is_ours=True)
    words, _ = conditions_by(rng, deal)
    draw = ["--draw", str(rng.randrange(2, 9)), "--seed", str(number), *words]
    with tempfile.TemporaryDirectory() as folder:
        room = Room(program, folder, deal, seconds)
        file, line, status = room.ask(["draw"], *draw)
        room.write("drawn.lay", file)
        for job in TELLS:
            of_drawn = room.ask(job, *draw, "--moves", "2")
            of_file = room.ask(job, "--layouts", "drawn.lay", "--moves", "2") if not status else (b"", line, status)
            if of_drawn != of_file or bool(status) == bool(of_drawn[0]):
                return f"{job} with {draw} says {of_drawn[1:]}, and {of_file[1:]} of the file\n{deal.text.decode()}"
    return None


def by_seeds(given, seeds):
    """How often each layout of one ending is drawn by these seeds, and how many there are; or what is wrong."""
    program, _, seconds = given
    deal = Deal(random.Random("seeds"), 36)
    found = Counter()
    with tempfile.TemporaryDirectory() as folder:
        room = Room(program, folder, deal, seconds)
        for seed in seeds:
            text, _, status = room.ask(["draw"], "--draw", "6", "--seed", str(seed))
            found.update([] if status else text.split(b"\n")[2:-1])
    return found


def about_chance(found, deal):
    """What is wrong with how often each layout was drawn, if anything."""
    size = drawing.Fitting(deal.board).count()
    chance = 6 / size
    middle, most = SEEDS * chance, SIGMAS * math.sqrt(SEEDS * chance * (1 - chance))
    if size < 15 or len(found) != size:
        return f"{len(found)} layouts are drawn of {size}"
    odd = [f"{line.decode()} is drawn {times} times of {SEEDS}, not about {middle:.0f}" for line, times in found.items() if abs(times - middle) > most]
    return "\n".join(odd) or None


# What a trial says that is left to the proved program.
LEFT_OUT = "left out"


def outcome(trial):
    try:
        return trial.result()
    except subprocess.TimeoutExpired as late:
        return f"no end after {late.timeout} seconds: {late.cmd}"


def main():
    parser = cases.parser_of("Compares the layouts that are drawn with a second reading.")
    parser.set_defaults(program=cases.STUDY)
    given = parser.parse_args()
    lacking = given.program == cases.STUDY and cases.lacks_program()
    if lacking:
        print(f"draw: {lacking}")
        return 1
    asked = os.path.abspath(given.program), cases.is_proved("alphamu_study"), given.seconds
    with ProcessPoolExecutor(given.jobs) as pool:
        # The longest first.
        trials = [pool.submit(trial, asked, at) for trial, many in ((counted, BOARDS), (listed, BOARDS), (told, ENDINGS)) for at in range(many)]
        seeds = [pool.submit(by_seeds, asked, range(at, SEEDS, 10)) for at in range(10)]
        said = [outcome(trial) for trial in trials]
        said.append(about_chance(sum((part.result() for part in seeds), Counter()), Deal(random.Random("seeds"), 36)))
    left_out = said.count(LEFT_OUT)
    wrong = [line for line in said if line and line != LEFT_OUT]
    for line in wrong:
        print(f"draw: {line}")
    print(f"draw: {len(said) - left_out} boards and endings, {len(wrong)} differ, {left_out} left to the proved program")
    return 1 if wrong else 0


if __name__ == "__main__":
    sys.exit(main())
