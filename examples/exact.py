#!/usr/bin/env python3
"""Says whether a report is exact, that is, whether more moves would find the same front.

A plan stops when its moves are used up, or when the contract is certain to be made or to go down. So if declarer's side has
played fewer cards than there are moves, a `stop` is of the second kind. If every `stop` is, no layout was judged with open
hands, and any greater number of moves finds the same front.

Usage: exact.py REPORT"""
import sys


def open_stops(lines, moves):
    """How many stops of the plan that begins here come after as many cards of declarer's side as there are moves."""
    line = next(lines)
    if line == "stop":
        return 1 if moves == 0 else 0
    if line.startswith("play "):
        return open_stops(lines, moves - 1)
    count = 0
    for _ in range(int(line.removeprefix("hear "))):
        next(lines)
        count += open_stops(lines, moves)
    return count


def main():
    with open(sys.argv[1], encoding="ascii") as report:
        lines = iter(report.read().splitlines())
    moves = next(int(line.split()[1]) for line in lines if line.startswith("moves "))
    count = sum(open_stops(lines, moves) for line in lines if line.startswith("vector "))
    print("exact" if count == 0 else f"perhaps not exact: {count} stops at which the moves are used up")


if __name__ == "__main__":
    main()
