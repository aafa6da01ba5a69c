#!/usr/bin/env python3
"""Times looks into full stores of proven fronts against std::unordered_map in C++, in one run, and measures the memory of an entry.

The stores are filled with fronts of one vector, of nodes of seven tricks with 20 layouts: a private store with 65,536 entries, and a
table of one shard with 16,384. Then random keys are looked up: keys of entries, or the same nodes with another number of moves. The
time of a look is that of the run, less that of a run without looks, divided by the number of looks. The baseline, store_baseline.cpp,
does the same with nodes of the same size.

Entries of 64 vectors come from copies of one ending of four tricks, with its cards moved to other ranks at random; each front is
searched. The memory of an entry is the difference of peak memory between a store of 1,200 of them and one of 200, divided by 1,000.

Usage: bench/store.py [RUNS], the number of runs (default 5); the fastest counts. It builds the workload first, and needs GNU time as
/usr/bin/time."""
import pathlib
import subprocess
import sys
import tempfile

from search import peak, random_ending
from timing import WORKLOADS, build_workloads, processor_seconds

HERE = pathlib.Path(__file__).resolve().parent
OURS = [WORKLOADS, "store"]
THEIRS = HERE / "build" / "store_baseline"
LOOKS = 2_000_000
COPIES = (200, 1200)
# The most entries that a table may have.
LARGEST = 1 << 20


def microseconds(words, kind, runs):
    """The seconds of a look, and the line that the program prints."""
    idle = min(processor_seconds([*words, 0, kind])[0] for _ in range(runs))
    timed = [processor_seconds([*words, LOOKS, kind]) for _ in range(runs)]
    return (min(it for it, _ in timed) - idle) / LOOKS * 1e6, timed[0][1].strip()


def print_looks(runs):
    print("a look in microseconds of the processor     ours      C++    ours to C++")
    for store, entries in (("local", 65_536), ("shared", 16_384)):
        for kind in ("hits", "misses"):
            ours, told = microseconds([*OURS, store, entries], kind, runs)
            theirs, expected = microseconds([THEIRS, entries], kind, runs)
            if told != expected:
                sys.exit(f"{store}, {kind}: {told}; C++: {expected}")
            print("%-7s%6d entries, %-8s%27.3f%9.3f%15.2f" % (store, entries, kind, ours, theirs, ours / theirs), flush=True)


def print_entries(folder):
    """The memory of an entry of 64 vectors, by the width of its vectors."""
    ending = random_ending(4, 64, 1, 996)
    deal, layouts = folder / "deal.pbn", folder / "layouts.lay"
    deal.write_text(ending.deal)
    layouts.write_text(ending.layouts)
    for width in (64, 256):
        few, many = ([*OURS, deal, layouts, 3, width, copies, copies] for copies in COPIES)
        told = processor_seconds(many)[1].strip()
        size = (peak(many, folder) - peak(few, folder)) * 1048576 / (COPIES[1] - COPIES[0])
        print("%d layouts, %s: %.0f bytes an entry; %d of them: %.2f GiB" %
              (width, told, size, LARGEST, size * LARGEST / 2 ** 30), flush=True)


def main():
    runs = int(sys.argv[1]) if len(sys.argv) > 1 else 5
    THEIRS.parent.mkdir(exist_ok=True)
    subprocess.run(["g++", "-O2", "-o", THEIRS, HERE / "store_baseline.cpp"], check=True)
    build_workloads()
    print_looks(runs)
    with tempfile.TemporaryDirectory() as folder:
        print_entries(pathlib.Path(folder))
    print(f"again: bench/store.py {runs}")


if __name__ == "__main__":
    main()
