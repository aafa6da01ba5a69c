#!/usr/bin/env python3
"""Times how the job `list` counts the layouts of a whole deal, more than it can write, before any card and after 20 cards. Prints the
milliseconds of the processor per run, also as a multiple of those of a run on the same deal with the defenders' hands hidden, which
reads the board and counts nothing.

Usage: bench/list.py [RUNS], the number of runs in a batch (default 200); the fastest of five batches counts. It builds the program
first if that is needed."""
import pathlib
import resource
import subprocess
import sys
import tempfile

HERE = pathlib.Path(__file__).resolve().parent
BUILD = HERE.parent / "build"
PROGRAM = HERE.parent / "crates" / "alphamu" / "out" / "alphamu"
BATCHES = 5

SHOWN = '[Deal "N:32.AKQJ.JT98.432 K98764.5.A76.T76 AQ.T987.KQ5.AKQ5 JT5.6432.432.J98"]\n'
HIDDEN = '[Deal "N:A2.AK.. - KQ.QJ.. -"]\n'
CONTRACT = '[Declarer "S"]\n[Contract "6NT"]\n'
PLAY = '[Play "W"]\nCJ C2 C6 CA\nD2 D8 DA DK\nC8 C3 C7 CK\nC9 C4 CT CQ\nD3 D9 S4 D5\n*\n'

# The deal file, and the line that the run must end with. The counts come from all divisions of the cards, tested one by one.
KINDS = {
    "nothing counted": (HIDDEN + CONTRACT + '[EndNeed "4"]\n[EndLead "S"]\n', "alphamu: defenders not shown\n"),
    "before any card": (SHOWN + CONTRACT, "alphamu: 10400600 layouts fit\n"),
    "after 20 cards": (SHOWN + CONTRACT + PLAY, "alphamu: 1287 layouts fit\n"),
}


def milliseconds(name, line, runs):
    """Milliseconds of the processor per run. The script ends if the program prints anything else."""
    before = resource.getrusage(resource.RUSAGE_CHILDREN)
    for _ in range(runs):
        done = subprocess.run([PROGRAM, "--job", "list", "--deal", name], capture_output=True, text=True)
        if (done.returncode, done.stdout, done.stderr) != (12, "", line):
            sys.exit(f"{name}: status {done.returncode}, {done.stdout!r}, {done.stderr!r}")
    after = resource.getrusage(resource.RUSAGE_CHILDREN)
    return 1e3 * (after.ru_utime + after.ru_stime - before.ru_utime - before.ru_stime) / runs


def main():
    runs = int(sys.argv[1]) if len(sys.argv) > 1 else 200
    subprocess.run([BUILD], check=True)
    with tempfile.TemporaryDirectory() as folder:
        print("                  milliseconds a run   to a run that counts nothing")
        alone = None
        for kind, (deal, line) in KINDS.items():
            file = pathlib.Path(folder) / "deal.pbn"
            file.write_text(deal)
            taken = min(milliseconds(file, line, runs) for _ in range(BATCHES))
            alone = alone or taken
            print("%-15s   %18.2f   %28.2f" % (kind, taken, taken / alone), flush=True)
    print(f"again: bench/list.py {runs}")


if __name__ == "__main__":
    main()
