#!/usr/bin/env python3
"""Times the reading of the plans of a report: one of 25,000 lines and one of 100,000. Prints lines per second, and the time per line of
the longer plan as a multiple of that of the shorter.

The plan is a wide one: declarer's side and the defenders play in turn, with a reply to each of the 52 cards while lines are left. `check`
reads the whole report first, and then refuses it, since its head is of another need; so it judges no plan. What a run takes on a plan of
one line isn't counted. The long plan is read ROUNDS times, and the short one four times as often; the least of RUNS such sums counts.
How long it takes to write plans is in what bench/cuts.py says of `solve`.

Usage: bench/plans.py [--program FILE]. The program must be built: ./build."""
import argparse
import pathlib
import subprocess
import sys
import tempfile

from timing import PROGRAM, seconds_of_runs

LENGTHS = (25_000, 100_000)
ROUNDS, RUNS = 20, 3
LEVELS = 64
CARDS = [suit + rank for suit in "SHDC" for rank in "23456789TJQKA"]
DEAL = """[Deal "N:32... - KJ... -"]
[Declarer "S"]
[Contract "1NT"]
[EndNeed "1"]
[EndLead "N"]
"""
LAYOUTS = "N:32... A7... KJ... Q5...\nN:32... Q7... KJ... A5...\n"
HEAD = """alphamu report 1
declarer S
trump NT
need 2
hand S KJ...
hand N 32...
trick N -
turn N
moves 2
kept 1 2
front 1
vector 10 count 1
"""
END = "card S2 count 1\nend\n"
REFUSED = "alphamu: plan 0: head differs\n"


def ours(lines, levels):
    """A plan of this many lines, in which declarer's side plays if a line is left for what follows."""
    if lines < 2 or levels == 0:
        return ["stop"]
    return ["play " + CARDS[lines % 52], *theirs(lines - 1, levels - 1)]


def theirs(lines, levels):
    """A defender plays if lines are left for one reply; the replies are of about the same length."""
    if lines < 3 or levels == 0:
        return ours(lines, levels)
    count = min((lines - 1) // 2, 52)
    each, over = divmod(lines - 1, count)
    plan = [f"hear {count}"]
    for number in range(count):
        plan += ["on " + CARDS[number], *ours(each - (number >= over), levels - 1)]
    return plan


class Files:
    """The program, and a folder for the files that it reads."""

    def __init__(self, program, folder):
        self.program, self.folder = program, pathlib.Path(folder)
        for name, text in (("deal", DEAL), ("layouts", LAYOUTS)):
            (self.folder / name).write_text(text)

    def words(self, lines):
        """The words for a report with a plan of this many lines. The script ends if the program doesn't read it whole."""
        plan = ours(lines, LEVELS)
        report = self.folder / f"report.{lines}"
        report.write_text(HEAD + "\n".join(plan) + "\n" + END)
        files = [word for name in ("deal", "layouts") for word in (f"--{name}", self.folder / name)]
        words = [self.program, "--job", "check", *files, "--report", report]
        told = subprocess.run(words, capture_output=True, text=True).stderr
        if len(plan) != lines or told != REFUSED:
            sys.exit(f"{lines} lines, {len(plan)} of them written: {told!r}")
        return words

    def seconds_a_line(self, lines):
        runs = ROUNDS * LENGTHS[-1] // lines
        return seconds_of_runs(self.words(lines), self.words(1), runs, RUNS) / lines


def main():
    parser = argparse.ArgumentParser(description="Times the reading of plans.", allow_abbrev=False)
    parser.add_argument("--program", default=PROGRAM, type=pathlib.Path)
    with tempfile.TemporaryDirectory() as folder:
        files = Files(parser.parse_args().program.resolve(), folder)
        shorter, longer = (files.seconds_a_line(lines) for lines in LENGTHS)
    print("lines a second: 25,000      100,000   100,000 to 25,000, time a line")
    print("%22.4g %12.4g   %30.2f" % (1 / shorter, 1 / longer, longer / shorter))


if __name__ == "__main__":
    main()
