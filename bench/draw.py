#!/usr/bin/env python3
"""Measures how layouts are drawn (`draw` of alphamu_study): the instructions for each division of the cards that the play allows, after three
tricks, and the seconds of the processor and the peak memory for a whole deal before the first card, which has 10,400,600 divisions. Without
conditions, and with some of each kind. What is drawn must say as many layouts as a second program counts (checks/drawing.py).

Usage: bench/draw.py [--seconds] [PROGRAM]. PROGRAM is the proved one if you name none: ./build makes it. The instructions are counted by
valgrind's callgrind. With --seconds they are left out: the unproved program, which checks itself as it runs, doesn't run under valgrind."""
import os
import pathlib
import re
import subprocess
import sys
import tempfile

TOP = pathlib.Path(__file__).resolve().parent.parent
sys.dont_write_bytecode = True
sys.path.insert(0, str(TOP / "checks"))
import drawing
import reading

PROGRAM = TOP / "crates" / "alphamu_study" / "out" / "alphamu_study"
DEAL = b'[Deal "N:32.AKQJ.JT98.432 K98764.5.A76.T76 AQ.T987.KQ5.AKQ5 JT5.6432.432.J98"]\n[Declarer "S"]\n[Contract "6NT"]\n'
LATE = DEAL + b'[Play "W"]\nCJ C2 C6 CA\nD2 D8 D6 DQ\nC8 C3 C7 CK\n*\n'
# West is Left, and East is Right.
CONDITIONS = {
    "none": [],
    "points of one hand": [("--west", "2-6 hcp")],
    "two for each hand": [("--west", "2-6 hcp, balanced, lacks SK"), ("--west", "4+ hearts"), ("--east", "5+ spades"), ("--east", "holds SK, 7+ hcp")],
}


def words_of(pairs):
    return [word for pair in pairs for word in pair]


def count_of(deal, pairs):
    """How many layouts fit, and how many divisions the play allows."""
    lists = [[drawing.Condition(text.encode()) for seat, text in pairs if seat == name] for name in ("--west", "--east")]
    fitting = drawing.Fitting(reading.board_of(reading.games_read(deal)[0]), lists)
    return fitting.count(), fitting.divisions()


def draw(command, deal, pairs):
    """Draws twenty layouts. Seconds of the processor, KiB, and whether the first line has the right count."""
    with tempfile.TemporaryDirectory() as folder:
        file = pathlib.Path(folder, "deal.pbn")
        file.write_bytes(deal)
        words = [*map(str, command), "--job", "draw", "--deal", str(file), "--draw", "20", *words_of(pairs)]
        with subprocess.Popen(words, stdout=subprocess.PIPE, stderr=subprocess.DEVNULL) as child:
            first = child.stdout.readline()
            child.stdout.read()
            _, status, used = os.wait4(child.pid, 0)
            child.returncode = status
    count, _ = count_of(deal, pairs)
    if status or first != drawing.head_line(min(20, count), count, 1):
        sys.exit(f"{words}: status {status}, {first}, and {count} fit")
    return used.ru_utime + used.ru_stime, used.ru_maxrss


def instructions(program, deal, pairs):
    with tempfile.NamedTemporaryFile() as counts:
        draw(["valgrind", "--tool=callgrind", f"--callgrind-out-file={counts.name}", program], deal, pairs)
        return int(re.search(rb"^(?:summary|totals): (\d+)", counts.read(), re.M)[1])


def main():
    given = [word for word in sys.argv[1:] if word != "--seconds"]
    program = given[0] if given else PROGRAM
    print("%-21s %12s %14s %9s %8s" % ("conditions", "that fit", "instr/division", "seconds", "MiB"))
    for name, pairs in CONDITIONS.items():
        seconds, memory = draw([program], DEAL, pairs)
        each = "left out" if "--seconds" in sys.argv else round(instructions(program, LATE, pairs) / count_of(LATE, pairs)[1])
        print("%-21s %12d %14s %9.2f %8.1f" % (name, count_of(DEAL, pairs)[0], each, seconds, memory / 1024), flush=True)


if __name__ == "__main__":
    main()
