#!/usr/bin/env python3
"""library.py [COUNT]

Times questions to the library beside a process for each question, in one run on one machine, and prints microseconds: the least of COUNT
times (default 200), or of as many as fit into five seconds, and, behind it, the mean. The least is what the work takes; the mean has what else the machine does.

    process   the proved program, started by posix_spawn; its output is read through a pipe
    by text   the library's call with the same files, which gives the same bytes
    by bits   the call by bits with the same question; for `report` it is the front, and for `strategy` the strategy for the front's first
              vector
    DDS       SolveBoard of Bo Haglund's DDS (Debian's libdds-dev) for one layout of the question: all cards of the side to play. It isn't
              the same question; it is what a simulation asks once for each layout. Left out if it isn't installed

The questions are the ending of examples/queen, the suit combination of the front page, and the slam of examples/slam. The last columns
say how many times as long as a call a process takes, by the least times. For a small question, such as those about the queen, a call is
meant to take less than a tenth of a process.

The program and the library must be built: ./build and ./build library."""
import os
import pathlib
import subprocess
import sys
import tempfile

sys.dont_write_bytecode = True
TOP = pathlib.Path(__file__).resolve().parent.parent
sys.path[:0] = [str(TOP / it) for it in ("package", "bindings/python", "checks")]
import libraries
import library_bits
import library_cases

PROGRAM = TOP / "crates" / "alphamu" / "out" / "alphamu"
# Name, job, deal file, layout file, moves, and the one by bits that is like it.
SUIT = "suit"
QUESTIONS = (
    ("queen, card", "card", "examples/queen.pbn", "examples/queen.lay", 2, "bits_card"),
    ("queen, report", "solve", "examples/queen.pbn", "examples/queen.lay", 2, "bits_front"),
    ("suit, card", "card", f"{SUIT}.pbn", f"{SUIT}.lay", 26, "bits_card"),
    ("slam, card", "card", "examples/slam/deal.pbn", "examples/slam/layouts.lay", 4, "bits_card"),
    ("slam, report", "solve", "examples/slam/deal.pbn", "examples/slam/layouts.lay", 4, "bits_front"),
    ("slam, strategy", "solve", "examples/slam/deal.pbn", "examples/slam/layouts.lay", 4, "bits_strategy"),
)
HAS_DDS = pathlib.Path("/usr/include/dds/dll.h").exists()


class Bench:
    """The programs that time, in a folder, and how often each question is asked."""

    def __init__(self, room, count):
        self.room, self.count = pathlib.Path(room), count
        libraries.look_for_proved()
        libraries.make(self.room)
        dds = ["-DWITH_DDS"] if HAS_DDS else []
        words = ["cc", "-O2", *dds, f"-I{libraries.HEADER.parent}", TOP / "bench/library.c", TOP / "checks/library/questions.c"]
        subprocess.run([*words, self.room / "libalphamu.a", *(["-ldds"] if HAS_DDS else []), "-o", self.room / "timed"], check=True)
        subprocess.run([TOP / "examples/suits/make.py", "K10x", "AQ9xx", self.room / SUIT], check=True)

    def path(self, name):
        return self.room / name if name.startswith(SUIT) else TOP / name

    def times(self, kind, *words):
        """A pair of microseconds for each question: the least and the mean."""
        found = subprocess.run([self.room / "timed", kind, str(self.count), *map(str, words)], capture_output=True, text=True, check=True)
        return [tuple(map(float, it.split())) for it in found.stdout.splitlines()]

    def row(self, name, job, deal, layouts, moves, bits):
        files = [self.path(it).read_bytes() for it in (deal, layouts)]
        states, trump, weights = library_cases.states_of(files)
        position, lefts = library_cases.by_bits(states, trump)
        import alphamu  # which loads the library that was made here
        given = alphamu.Question(**position, moves=moves)._given(lefts, weights)
        parts = [bytes(it) for it in (given[0], given[1], given[3])]
        asked = [library_bits.record(library_cases.CALLS[job], moves, library_cases.NODES, files, 0, b""),
                 library_bits.record(bits, 0, 0, parts, 0, b"")]
        library_bits.write(self.room / "asked", asked)
        library_bits.write(self.room / "by bits", asked[1:])
        words = ["--job", job, "--deal", self.path(deal), "--layouts", self.path(layouts), "--moves", moves]
        process, (text, by_bits) = self.times("process", PROGRAM, *words)[0], self.times("calls", self.room / "asked")
        dds = self.times("dds", self.room / "by bits")[0] if HAS_DDS else None
        cells = ["%10.1f%10.1f" % it if it else "%20s" % "left out" for it in (process, text, by_bits, dds)]
        print(f"{name:16}{moves:6}{''.join(cells)}{process[0] / text[0]:16.1f}{process[0] / by_bits[0]:16.1f}", flush=True)


def main():
    count = int(sys.argv[1]) if len(sys.argv) > 1 else 200
    with tempfile.TemporaryDirectory() as room:
        try:
            bench = Bench(room, count)
        except libraries.Lacking as fault:
            sys.exit(f"library: {fault}")
        os.environ["ALPHAMU_LIBRARY"] = str(bench.room / "libalphamu.so")
        print("question         moves             process             by text             by bits                 DDS  process / text  process / bits")
        for question in QUESTIONS:
            bench.row(*question)


if __name__ == "__main__":
    main()
