#!/usr/bin/env python3
"""Checks double dummy against plain minimax and Bo Haglund's DDS (Debian's libdds-dev), and compares its time with DDS's, and
with that of the same work in C++. Both sides answer the same question on the same random deals in one run. If an answer differs, the run stops.

Usage: bench/double_dummy.py [MODE ..] [--OPTION VALUE ..]. If you give no mode, it runs all of them except `plain`.
    agree    compares answers: each need after 0 to 7 random cards, so inside tricks too. ENDINGS endings of three to eight tricks,
             against plain minimax up to five tricks and DDS from six on; DEALS whole deals; a tenth as many of each length between
    rows     DEALS deals a row, without and with trumps: the cards that reach the need, in 20 layouts of 7, 8 and 10 tricks and in one
             layout of 12 and 13, and the tricks of a deal of 12 and 13
    hard     the cards that reach the need in five hard deals, found among 250 of thirteen tricks at no trump
    slowest  the same in DEALS other deals, and the five that took longest
    whole    the same in 20 layouts of DEALS deals of thirteen tricks, without and with trumps
    plain    microseconds an ending, beside minimax in C++, plain and with a memo

What is compared:
    cards    Which of declarer's cards reach the need in each layout? The need is what declarer's side takes in the first layout. alphamu
             answers by its job `fusion`, DDS by SolveBoard with the need as target and solutions 2, called once a layout.
    tricks   How many tricks does declarer's side take? Both sides are asked whether it takes 1, 2 and so on, until it doesn't. DDS
             takes no longer for this than for its own count.
DDS remembers what it was asked, so it is asked about another deal before each question.

What is timed: processor time, the least of up to seven runs, or of fewer if they take long.
    cards    The proved program itself, less a run on the same files with a need of 0, which double dummy answers at once: reading,
             threads and the report don't count. Either run varies by some tenths of a millisecond, and 20 layouts of 7 tricks take
             several milliseconds. Fewer tricks or layouts can't be timed this way. Less than 0.2 milliseconds counts as 0.2.
    tricks   The proved program of workloads, which asks one solver for all needs, less a run on no deal.
    DDS      Its calls alone, in one process for the whole run.

A ratio is alphamu's time divided by DDS's. Deals differ a lot, so each row has the median and the geometric mean of the ratios, the
ratio of the sums, and the worst ratio.

The program must be built: ./build. For `agree`, `plain` and the tricks of a deal the program of workloads is built first."""
import argparse
import itertools
import pathlib
import statistics
import sys
import tempfile

from double_dummy_deals import deals, workload_deals
from double_dummy_endings import STRAINS, Endings, same
from double_dummy_sides import Alphamu, Dds, build_baseline
from timing import WORKLOADS, build_workloads

PROGRAM = pathlib.Path(__file__).resolve().parent.parent / "crates" / "alphamu" / "out" / "alphamu"
# Each mode, with its number of deals if none is given.
MODES = {"agree": 1000, "rows": 40, "hard": 5, "slowest": 250, "whole": 10, "plain": 0}
WITHOUT_DDS = {"agree", "plain"}
ROWS = (("cards", 7, 20), ("cards", 8, 20), ("cards", 10, 20), ("cards", 12, 1), ("cards", 13, 1), ("tricks", 12, 1), ("tricks", 13, 1))
HARD_SEED, HARD = 31337, (20, 39, 72, 110, 247)
HEAD = "question  tricks  layouts   strain  deals   median  geo mean     sum    worst   most seconds      DDS  mean seconds      DDS"


class Bench:
    """What was asked for, and the two sides."""

    def __init__(self, given, alphamu, dds, endings):
        self.given, self.alphamu, self.dds, self.endings = given, alphamu, dds, endings

    def count(self, mode):
        return self.given.deals or MODES[mode]

    def cards(self, deal, what):
        """Seconds of alphamu and of DDS for the cards that reach the need, and the need."""
        need = max(1, self.dds.tricks(deal))
        theirs, answer = self.dds.cards(deal, need)
        ours, vectors = self.alphamu.cards(deal, need)
        same(vectors, answer, f"{what}, need {need}")
        return (ours, theirs), need

    def tricks(self, deal, number, strain, what):
        """The same for the tricks of a deal, which has this number in the program of workloads."""
        theirs, answer = self.dds.needs(deal)
        ours, told = self.alphamu.tricks(number, len(deal.declarer), strain)
        same(told, answer, what)
        return ours, theirs

    def row(self, question, tricks, layouts, strain, count):
        """Prints a row, and returns the seconds of both sides on each deal."""
        by_cards, first, pairs = question == "cards", self.given.first, []
        them = deals(self.given.seed, tricks, strain, layouts) if by_cards else workload_deals(first, tricks, strain)
        for number, deal in enumerate(itertools.islice(them, count)):
            what = f"{question}, {tricks} tricks, {layouts} layouts, {strain}, deal {number}"
            pairs.append(self.cards(deal, what)[0] if by_cards else self.tricks(deal, first + number, strain, what))
        print_row((question, tricks, layouts, strain), pairs)
        return pairs

    def agree(self):
        self.endings.agree_on_all(self.given.endings, self.count("agree"))

    def plain(self):
        self.endings.table(self.given.seconds)

    def rows(self):
        print(f"cards: seed {self.given.seed}; tricks: deals of the program of workloads from number {self.given.first} on\n{HEAD}")
        for (question, tricks, layouts), strain in itertools.product(chosen_rows(self.given), STRAINS):
            self.row(question, tricks, layouts, strain, self.count("rows"))

    def hard(self):
        print(f"hard deals, seed {HARD_SEED}: seconds\n  deal  need   alphamu      DDS")
        for number in HARD[:self.count("hard")]:
            deal = next(itertools.islice(deals(HARD_SEED, 13, "notrump"), number, None))
            (ours, theirs), need = self.cards(deal, f"hard deal {number}")
            print("%6d%6d%10.3f%9.3f" % (number, need, ours, theirs), flush=True)

    def slowest(self):
        print(f"seed {self.given.seed}\n{HEAD}")
        pairs = self.row("cards", 13, 1, "notrump", self.count("slowest"))
        for number in sorted(range(len(pairs)), key=lambda it: -pairs[it][0])[:5]:
            print("deal %d: %.3f seconds, DDS %.3f" % (number, *pairs[number]))

    def whole(self):
        print(f"seed {self.given.seed}\n{HEAD}")
        for strain in STRAINS:
            self.row("cards", 13, 20, strain, self.count("whole"))


def chosen_rows(given):
    return [row for row in ROWS if given.question in (None, row[0]) and given.tricks in (None, row[1])]


def print_row(what, pairs):
    ratios = [one / other for one, other in pairs]
    ours, theirs = zip(*pairs)
    print("%8s%8d%9d%9s" % what, "%6d%9.2f%10.2f%8.2f%9.1f%15.3f%9.3f%14.4f%9.4f" % (
        len(pairs), statistics.median(ratios), statistics.geometric_mean(ratios), sum(ours) / sum(theirs), max(ratios),
        max(ours), max(theirs), statistics.mean(ours), statistics.mean(theirs)), flush=True)


def words():
    parser = argparse.ArgumentParser(description=__doc__, formatter_class=argparse.RawDescriptionHelpFormatter)
    parser.add_argument("modes", nargs="*", metavar="MODE")
    counts = ", ".join(f"{mode} {deals}" for mode, deals in MODES.items() if deals)
    parser.add_argument("--deals", type=int, help=f"how many deals (default: {counts})")
    parser.add_argument("--endings", type=int, default=50_000, help="how many endings `agree` compares (default 50000)")
    parser.add_argument("--seed", type=int, default=7310042, help="of the deals whose cards are asked about (default 7310042)")
    parser.add_argument("--first", type=int, default=1000, help="number of the first deal whose tricks are asked about (default 1000)")
    parser.add_argument("--question", choices=("cards", "tricks"), help="only these `rows`")
    parser.add_argument("--tricks", type=int, help="only `rows` of this many tricks")
    parser.add_argument("--seconds", type=float, default=0.5, help="the least time of one measurement of `plain` (default 0.5)")
    parser.add_argument("--program", type=pathlib.Path, default=PROGRAM, help="alphamu (default: as ./build makes it)")
    parser.add_argument("--workloads", type=pathlib.Path, help="the program of workloads (default: it is built)")
    given = parser.parse_args()
    unknown = [mode for mode in given.modes if mode not in MODES]
    if unknown:
        parser.error(f"no such mode: {', '.join(unknown)}; the modes are {', '.join(MODES)}")
    given.modes = given.modes or [mode for mode in MODES if mode != "plain"]
    if set(given.modes) - WITHOUT_DDS and not given.program.exists():
        parser.error(f"{given.program} isn't there; ./build makes it")
    return given


def workloads(given):
    """The program of workloads, which is built if it is needed and not given."""
    asks_tricks = "rows" in given.modes and any(row[0] == "tricks" for row in chosen_rows(given))
    if not given.workloads and (asks_tricks or WITHOUT_DDS & set(given.modes)):
        build_workloads()
    return given.workloads or WORKLOADS


def main():
    given = words()
    has_dds = build_baseline()
    if not has_dds and set(given.modes) - WITHOUT_DDS:
        sys.exit("without Debian's libdds-dev there are only the modes agree and plain")
    program = workloads(given)
    with tempfile.TemporaryDirectory() as folder:
        alphamu = Alphamu(given.program, program, pathlib.Path(folder))
        bench = Bench(given, alphamu, Dds() if has_dds else None, Endings(program, has_dds))
        for mode in given.modes:
            getattr(bench, mode)()
    print("again: bench/double_dummy.py", *sys.argv[1:])


if __name__ == "__main__":
    main()
