#!/usr/bin/env python3
"""Times the reading of PBN text in deal files of 64 KiB, 256 KiB and 1 MiB, which is the most that the program reads. Prints bytes per
second, and the time per byte as a multiple of that at 64 KiB.

Each file holds one thing again and again, and `list` reads it. What a run takes on a file with that thing once isn't counted. The files
of 1 MiB are read ROUNDS times, and smaller ones as much more often; the least of RUNS such sums counts.

Usage: bench/pbn.py [--program FILE] [KIND ..]. The program must be built: ./build. A kind is a word of KINDS or the number of a byte. By
default the script takes all words, then each byte in turn, and prints the worst of these."""
import argparse
import pathlib
import tempfile

from timing import PROGRAM, seconds_of_runs

SIZES = (1 << 16, 1 << 18, 1 << 20)
ROUNDS, RUNS = 8, 3
# A board as a club records it.
RECORD = """[Event "Tuesday pairs"]
[Site "Utrecht"]
[Date "2018.01.14"]
[Board "7"]
[West "De Vries"]
[North "Jansen"]
[East "Bakker"]
[South "Visser"]
[Dealer "S"]
[Vulnerable "All"]
[Deal "S:AQ97.K85.A4.KQ73 T52.QJ93.J82.A64 K84.A62.KT973.J5 J63.T74.Q65.T982"]
[Scoring "MP"]
[Declarer "S"]
[Contract "3NT"]
[Result "10"]
{ A fair contract; "how do you play?" }
[Auction "S"]
1NT =1= Pass 2NT =2= Pass
3NT Pass Pass Pass
[Note "1:15-17, may hold a five card major"]
[Play "W"]
HQ H2 H4 HK
D2 D9 DQ DA
D8 DK D5 D4 ; the tens are out
*

"""
# What a file begins with, and what it has again and again.
KINDS = {"brackets": ("", "["), "braces": ("", "{"), "quotes": ("", '"'), "line": ('[A "b"]', "c"), "words": ('[A "b"]', "cd "),
         "blanks": ("", " \n"), "games": ("", '[A""]\n\n'), "records": ("", RECORD)}


class Files:
    """The program, and a folder for the files that it reads."""

    def __init__(self, program, folder):
        self.program, self.folder = program, pathlib.Path(folder)

    def words(self, name, content):
        (self.folder / name).write_bytes(content)
        return [self.program, "--job", "list", "--deal", self.folder / name]

    def seconds_a_byte(self, kind, size, rounds):
        front, piece = (text.encode() for text in KINDS[kind]) if kind in KINDS else (b"", bytes([int(kind)]))
        once, often = front + piece, front + piece * ((size - len(front)) // len(piece))
        runs = rounds * SIZES[-1] // size
        return seconds_of_runs(self.words("often", often), self.words("once", once), runs, RUNS) / (len(often) - len(once))


def line(files, kind, rounds):
    """How much more a byte takes in larger files, and a line that says so."""
    taken = [files.seconds_a_byte(kind, size, rounds) for size in SIZES]
    ratios = [it / taken[0] for it in taken[1:]]
    return ratios, "%10s %s   %14.2f %14.2f" % (kind, " ".join("%12.4g" % (1 / it) for it in taken), *ratios)


def main():
    parser = argparse.ArgumentParser(description="Times the reading of PBN text.", allow_abbrev=False)
    parser.add_argument("--program", default=PROGRAM, type=pathlib.Path)
    parser.add_argument("kinds", nargs="*", metavar="KIND")
    given = parser.parse_args()
    with tempfile.TemporaryDirectory() as folder:
        files = Files(given.program.resolve(), folder)
        print("      kind  bytes a second: 64 KiB      256 KiB        1 MiB   256 KiB to 64   1 MiB to 64 KiB, time a byte")
        for kind in given.kinds or KINDS:
            print(line(files, kind, ROUNDS)[1], flush=True)
        if not given.kinds:
            each = [line(files, str(byte), 1) for byte in range(256)]
            for _, text in sorted(each, key=lambda it: -max(it[0]))[:5]:
                print(text)


if __name__ == "__main__":
    main()
