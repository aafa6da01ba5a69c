"""Random endings for bench/double_dummy.py. The program of workloads and the one in C++ deal the same ones, many in a run, and print one
number that depends on all the answers."""
import itertools
import math
import sys

from double_dummy_sides import BASELINE, less_idle
from timing import processor_seconds

STRAINS = ("notrump", "suit")
PLAIN_NEEDS_TRICKS, PLAIN_TRICKS = 5, 6  # plain minimax takes too long beyond
CHUNK = 500


def same(one, other, what):
    if one != other:
        sys.exit(f"the answers differ: {what}: {one}, {other}")


class Endings:
    """What to run: words that depend on the number of the first ending and on how many there are."""

    def __init__(self, workloads, has_dds):
        self.workloads, self.has_dds = workloads, has_dds

    def ours(self, question, tricks, strain):
        return lambda first, endings: [self.workloads, "double_dummy", tricks, first, endings, question, strain]

    def theirs(self, question, tricks, strain):
        return lambda first, endings: [BASELINE, question, tricks, first, endings, strain]

    def agree(self, tricks, count):
        """Compares the solver with plain minimax on short endings, and with DDS, if it is there, on longer ones."""
        by_plain = tricks <= PLAIN_NEEDS_TRICKS
        if not (by_plain or self.has_dds):
            return
        each = math.ceil(count / len(STRAINS))
        for strain, first in itertools.product(STRAINS, range(0, each, CHUNK)):
            judge = self.ours("plain-needs", tricks, strain) if by_plain else self.theirs("needs", tricks, strain)
            endings = min(CHUNK, each - first)
            answers = [processor_seconds(it(first, endings))[1] for it in (self.ours("needs", tricks, strain), judge)]
            same(*answers, f"{tricks} tricks, {strain}, {endings} endings from number {first} on")
        print(f"{tricks} tricks, {each * len(STRAINS)} endings, each need after 0 to 7 cards: the solver and "
              f"{'plain minimax' if by_plain else 'DDS'} agree", flush=True)

    def agree_on_all(self, short, whole):
        """Compares `short` endings of three to eight tricks, `whole` deals, and a tenth as many of each length between."""
        for tricks in range(3, 14):
            self.agree(tricks, short / 6 if tricks <= 8 else whole if tricks == 13 else whole / 10)

    def table(self, enough):
        answers = {}
        print("microseconds an ending\n"
              "tricks   strain      solver   C++ memo        DDS      plain  C++ plain   solver to memo   solver to DDS")
        for tricks, strain in itertools.product((4, 5, 6, 7, 8), STRAINS):
            programs = [self.ours("need", tricks, strain), self.theirs("memo", tricks, strain)]
            programs.append(self.theirs("dds", tricks, strain) if self.has_dds else None)
            if tricks <= PLAIN_TRICKS:
                programs += [self.ours("plain", tricks, strain), self.theirs("plain", tricks, strain)]
            else:
                programs += [None, None]
            times = [microseconds(it, (tricks, strain), enough, answers) if it else float("nan") for it in programs]
            print("%6d  %7s" % (tricks, strain) + "%11.1f" * 5 % tuple(times),
                  "%16.2f%16.2f" % (times[0] / times[1], times[0] / times[2]), flush=True)


def microseconds(program, what, enough, answers):
    """Microseconds an ending. `answers` holds what the first program answered, and the others must answer the same."""
    endings = 50
    while True:
        taken, answer = processor_seconds(program(0, endings))
        same(answers.setdefault((what, endings), answer), answer, f"{what}, {endings} endings")
        if taken >= enough:
            return 1e6 * less_idle(program(0, endings), program(0, 0))[0] / endings
        endings *= 2
