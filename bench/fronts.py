#!/usr/bin/env python3
"""Times fronts and joins against the same work over std::vector in C++, in one run, and prints the ratios.

Usage: bench/fronts.py [SECONDS], the least processor time of one measurement (default 0.5). It builds both programs first.
"""
import pathlib
import subprocess
import sys

from timing import WORKLOADS, build_workloads, processor_seconds

HERE = pathlib.Path(__file__).resolve().parent
BASELINE = HERE / "build" / "fronts_baseline"
OURS = [WORKLOADS, "fronts"]
THEIRS = [BASELINE]
# kind, vectors of a front, what one round does
WORK = [("inserts", 1, 3), ("inserts", 8, 24), ("inserts", 64, 192), ("joins", 8, 1)]


def seconds(program, kind, size, rounds):
    return processor_seconds([*program, kind, size, rounds])


def rounds_of(kind, size, least):
    rounds = 100
    while seconds(THEIRS, kind, size, rounds)[0] < least:
        rounds *= 2
    return rounds


def main():
    least = float(sys.argv[1]) if len(sys.argv) > 1 else 0.5
    BASELINE.parent.mkdir(exist_ok=True)
    subprocess.run(["g++", "-O2", "-march=x86-64-v2", "-o", BASELINE, HERE / "fronts_baseline.cpp"], check=True)
    build_workloads()
    print("work          per second, ours   per second, C++   time, ours to C++")
    for kind, size, steps in WORK:
        rounds = rounds_of(kind, size, least)
        ours, theirs = [], []
        for _ in range(5):
            mine, own = seconds(OURS, kind, size, rounds)
            other, told = seconds(THEIRS, kind, size, rounds)
            if own != told:
                sys.exit(f"{kind} {size}: the two programs differ")
            ours.append(mine)
            theirs.append(other)
        mine, other = min(ours), min(theirs)
        print(f"{kind:8}{size:4}  {steps * rounds / mine:16.3g}  {steps * rounds / other:16.3g}  {mine / other:18.2f}")


if __name__ == "__main__":
    main()
