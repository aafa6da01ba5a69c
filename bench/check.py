#!/usr/bin/env python3
"""Times how the job `check` reads and judges a report of 4 MiB and one of 16 MiB, which is the limit. Prints the bytes per second,
and the time per byte of the longer report as a multiple of that of the shorter. Then it finds the smallest stack that is enough.

A report is what the job `solve` prints about an ending, with its plans repeated until it is long enough. `check` must call each
report good. The time for a report of a single plan is subtracted. One ending has small plans and one has large ones.

The stack is given as the smallest limit that is enough, in steps of 4 KiB: for a report of a single plan and for the one of 16 MiB;
for the deepest strategy, 52 levels, which plays out a whole deal; for a plan of 64 levels, which can't be a strategy and is refused
at its node at level 52; and for a plan of 65 levels, which isn't read. If the system has setarch, the stack begins at the same place
in each run; otherwise the numbers differ from run to run by up to 8 KiB.

Usage: bench/check.py [RUNS], the number of times that each is timed (default 5); the fastest counts. It builds the program first if
that is needed."""
import functools
import itertools
import pathlib
import shutil
import subprocess
import sys
import tempfile

from search import BUILD, CLUBS, HEARTS, DIAMONDS, PROGRAM, RANKS, SPADES, Ending, output, random_ending
from timing import least_seconds, processor_seconds

MOST_BYTES = 16_777_216
LENGTHS = (MOST_BYTES // 4, MOST_BYTES)
STEP = 4
MOST_STACK = 8192


class Report:
    """The pieces of a report: the lines before its `front` line, the plans with their `vector` lines, and the last two lines."""

    def __init__(self, text):
        lines = text.splitlines(keepends=True)
        front = next(place for place, line in enumerate(lines) if line.startswith("front "))
        self.head, self.end, self.plans = "".join(lines[:front]), "".join(lines[-2:]), []
        for line in lines[front + 1:-2]:
            if line.startswith("vector "):
                self.plans.append("")
            self.plans[-1] += line

    def of(self, plans):
        return f"{self.head}front {len(plans)}\n{''.join(plans)}{self.end}"

    def filled(self, length):
        """The plans again and again, as many as fit into this length."""
        room = length - len(self.of([])) - len(str(length))
        plans = []
        for plan in itertools.cycle(self.plans):
            room -= len(plan)
            if room < 0:
                return plans
            plans.append(plan)


class Problem:
    """The files of an ending, and the words that the program is run with."""

    def __init__(self, folder, ending):
        self.folder, self.ending = folder, ending
        self.deal, self.layouts = folder / "deal.pbn", folder / "layouts.lay"
        self.deal.write_text(ending.deal)
        self.layouts.write_text(ending.layouts)

    def words(self, job, *more):
        return [str(it) for it in (PROGRAM, "--job", job, "--deal", self.deal, "--layouts", self.layouts, *more)]

    def solved(self, moves):
        return Report(output(self.words("solve", "--moves", moves)))

    def written(self, name, text):
        """The words that have a report of this text judged."""
        path = self.folder / name
        path.write_text(text)
        return self.words("check", "--report", path)


def good(plans):
    return 0, f"alphamu check 1\nplans {plans}\ngood\n", ""


def seconds(words, plans):
    """Seconds of the processor. The script ends if the plans aren't called good."""
    taken, told = processor_seconds(words)
    if told != good(plans)[1]:
        sys.exit(f"{words}: {told!r}")
    return taken


@functools.cache
def with_one_start():
    """The words that make a program's stack begin at the same place in each run; none if the system has no such command."""
    words = ["setarch", "-R"]
    able = shutil.which(words[0]) and subprocess.run([*words, "true"], capture_output=True).returncode == 0
    return words if able else []


def serves(words, told, stack):
    """Whether the program ends with this output and exit status on a stack of this many KiB."""
    limited = [*with_one_start(), "bash", "-c", 'ulimit -S -s "$0" && exec "$@"', str(stack), *words]
    done = subprocess.run(limited, capture_output=True, text=True)
    return (done.returncode, done.stdout, done.stderr) == told


def least_stack(words, told, least=STEP):
    """The smallest stack in KiB, from `least` on, on which the program ends with this output and exit status."""
    high = least
    while not serves(words, told, high):
        if high > MOST_STACK:
            sys.exit(f"{words}: expected {told!r} on a stack of {high} KiB")
        high *= 2
    low = max(high // 2, least - STEP)
    while high - low > STEP:
        middle = (low + high) // (2 * STEP) * STEP
        if serves(words, told, middle):
            high = middle
        else:
            low = middle
    return high


def judged(ending, folder, runs):
    """Prints the times and the stacks of an ending's reports."""
    problem = Problem(folder, ending)
    report = problem.solved(ending.moves)
    one = problem.written("one plan", report.of(report.plans[:1]))
    sizes = []
    for length in LENGTHS:
        plans = report.filled(length)
        text = report.of(plans)
        sizes.append((problem.written(f"{length:08}", text), len(plans), len(text)))
    shorter, longer = least_seconds(lambda size, rounds: seconds(*size[:2]) if rounds else seconds(one, 1), sizes, 1, runs)
    (_, _, few), (words, plans, many) = sizes
    stack = least_stack(one, good(1))
    print("%-20s %6d%8d%11d%11.4g%11.4g%16.2f%11d%11d" % (
        ending.name, sum(map(len, report.plans)) // len(report.plans), plans, many, few / shorter, many / longer,
        longer / many / (shorter / few), stack, least_stack(words, good(plans), stack)), flush=True)


def forced_play():
    """South has to take all thirteen tricks and leads from the bottom of each suit, so South loses each trick unless both
    defenders play low. West, East and South each hold a card for each round of a suit, in this order of rank; North's cards
    are below them."""
    west, north, east, south = [], [], [], []
    for suit, rounds in ((SPADES, 4), (HEARTS, 3), (DIAMONDS, 3), (CLUBS, 3)):
        low = 13 - 3 * rounds
        north += suit[:low]
        for hand, first in ((west, low), (east, low + 1), (south, low + 2)):
            hand += suit[first::3]
    return Ending("whole deal", north, south, [west], sorted(west + east), "NT", 13, "S", 26), (south, west, north, east)


def lines_of_play(hands, trick, moves, last):
    """The lines of a plan in which declarer's side always plays its lowest legal card, and which ends with `last` when the moves
    are used up. The hands are those of South, West, North and East. South is to lead, or has led to the trick."""
    if len(trick) == 4:
        taker = max(range(4), key=lambda seat: (trick[seat] // 13 == trick[0] // 13, trick[seat]))
        if taker % 2 == 1:
            return ["stop"]
        trick = []
    if moves == 0:
        return last
    seat = len(trick)
    legal = [card for card in hands[seat] if trick and card // 13 == trick[0] // 13] or hands[seat]

    def after(card):
        rest = [[held for held in hand if held != card] for hand in hands]
        return lines_of_play(rest, trick + [card], moves - (seat + 1) % 2, last)

    if seat % 2 == 0:
        return [f"play {name_of(legal[0])}", *after(legal[0])]
    return [f"hear {len(legal)}"] + [line for card in legal for line in (f"on {name_of(card)}", *after(card))]


def name_of(card):
    return "SHDC"[card // 13] + RANKS[card % 13]


def deep_stacks(folder):
    """Prints the stacks for the deepest plans."""
    ending, hands = forced_play()
    problem = Problem(folder, ending)
    report = problem.solved(1)
    report.head = report.head.replace("\nmoves 1\n", f"\nmoves {ending.moves}\n")

    def written(levels):
        """The words for a plan of this many levels, and the place of the last level among the lines, counted from 1."""
        last = ["play S2"] * (levels - 52) + ["stop"]
        lines = lines_of_play(hands, [], ending.moves, last)
        nodes = [place for place, line in enumerate(lines, 1) if not line.startswith("on ")]
        plan = "".join(f"{line}\n" for line in ("vector 0 count 0", *lines))
        return problem.written(f"{levels} levels", report.of([plan])), nodes[levels - 1]

    too_deep, place = written(65)
    line = len(report.head.splitlines()) + 2 + place
    for levels, words, told in (
        (52, written(52)[0], good(1)),
        (64, written(64)[0], (1, "", "alphamu: plan 1: not a strategy at node 52\n")),
        (65, too_deep, (11, "", f"alphamu: report line {line}: TooDeep\n")),
    ):
        said = (told[1] or told[2]).splitlines()[-1]
        print("%d levels: %d KiB of stack, %s" % (levels, least_stack(words, told), said), flush=True)


def main():
    runs = int(sys.argv[1]) if len(sys.argv) > 1 else 5
    subprocess.run([BUILD], check=True)
    print("                      bytes   plans      bytes      bytes a second   16 MiB to 4 MiB,   KiB of stack:")
    print("ending               a plan       in 16 MiB      4 MiB     16 MiB     time a byte   one plan     16 MiB")
    with tempfile.TemporaryDirectory() as folder:
        for ending in (random_ending(3, 16, 2, 12), random_ending(4, 32, 26, 14)):
            judged(ending, pathlib.Path(folder), runs)
        deep_stacks(pathlib.Path(folder))
    print(f"again: bench/check.py {runs}")


if __name__ == "__main__":
    main()
