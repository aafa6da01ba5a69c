#!/usr/bin/env python3
"""stops.py [MOVES]

Counts what the plans of a report depend on, and what `card` asks double dummy, on the endings of cuts.py with a front of at most ten vectors.

A plan wins a layout only if double dummy makes it at each stop that the layout can reach. So the report is right only if all these results
are: a pair of a stop and a layout that its vector wins there. Pairs are counted once, whichever plan they are in,
and positions with the same relative ranks count as one. They are left out if the
result is decided, or if the last card was declarer's only choice except for equal cards, since then it is that of the turn before. `card` needs
no plan; its questions to double dummy are the calls of `makes` that callgrind counts, so a question that is asked again counts again. They are
counted in the program as Rattle's own compiler builds it, since LLVM puts `makes` into its callers.

It prints both counts for each ending and number of moves up to MOVES (default 6), and for each number of moves the median of their ratios and
how many are over 1.3. It needs valgrind, and both builds of the program, which `rt ci` leaves."""
import pathlib
import re
import statistics
import subprocess
import sys
import tempfile

from cuts import PROGRAM, endings

sys.path.insert(0, str(pathlib.Path(__file__).resolve().parent.parent / "checks"))
import reading
from playing import after, is_decided, legal, seat_to_play

MOST_VECTORS = 10
ASKED = "dd_solver::solver::Solver::makes"
BY_RATTLE = PROGRAM.with_name("alphamu.by-rattle")


def is_forced(state, card):
    """Whether all legal cards of the seat to play are equal to this one: no other card in play lies between two of them."""
    hands, trick, leader, _ = state
    own = hands[(leader + len(trick)) % 4]
    able = legal(own, trick)
    others = {it for hand in hands for it in hand} - own | {it for _, it in trick}
    return able[0] // 13 == able[-1] // 13 and not any(able[0] < it < able[-1] for it in others)


def relative(state):
    """The state with the gaps of each suit closed."""
    hands, trick, leader, need = state
    cards = sorted({it for hand in hands for it in hand} | {it for _, it in trick})
    rank = {card: card // 13 * 13 + sum(it // 13 == card // 13 for it in cards[:at]) for at, card in enumerate(cards)}
    return tuple(frozenset(rank[it] for it in hand) for hand in hands), tuple((seat, rank[it]) for seat, it in trick), leader, need


def stops(plan, states, trump, forced=True):
    """The undecided stops of a plan, each with the layouts that reach it, by the states that begin it."""
    if plan is None:
        if not forced and not is_decided(states):
            yield from states
    elif isinstance(plan, tuple):
        card, below = plan
        seat, last = seat_to_play(states), is_forced(states[0], card)
        yield from stops(below, [after(*state, trump, seat, card) for state in states], trump, last)
    else:
        seat = seat_to_play(states)
        for card, below in plan:
            able = [after(*state, trump, seat, card) for state in states if card in legal(state[0][seat], state[1])]
            if able:
                yield from stops(below, able, trump)


def depended_on(files, report):
    """How many results of double dummy the plans of a report depend on, and the number of vectors."""
    board = reading.board_of(reading.games_read(files[0].read_bytes())[0])
    layouts = reading.layouts_kept(files[1].read_bytes(), board).layouts
    states = [reading.state_of(board, layout) for layout in layouts]
    entries = reading.report_of(report)[2]
    found = set()
    for bits, _, plan in entries if len(entries) <= MOST_VECTORS else ():
        won = [state for state, bit in zip(states, bits) if bit == ord("1")]
        found.update(map(relative, stops(plan, won, board.trump)))
    return len(found), len(entries)


def questions(words):
    """How often a run calls double dummy."""
    with tempfile.NamedTemporaryFile() as counts:
        tool = ["valgrind", "--tool=callgrind", f"--callgrind-out-file={counts.name}"]
        subprocess.run([*tool, *map(str, words)], capture_output=True, check=True)
        told = pathlib.Path(counts.name).read_text()
    number = re.search(r"fn=(\(\d+\)) " + re.escape(ASKED) + "$", told, re.M)
    if not number:
        sys.exit(f"{BY_RATTLE} has no function {ASKED}")
    called = re.escape(number[1]) + r"(?: \S+)?\ncalls=(\d+) "
    return sum(map(int, re.findall("cfn=" + called, told)))


def main():
    most = int(sys.argv[1]) if len(sys.argv) > 1 else 6
    print("ending                  layouts moves front  depended on  asked by card   ratio")
    ratios = {moves: [] for moves in range(1, most + 1)}
    with tempfile.TemporaryDirectory() as folder:
        files = pathlib.Path(folder, "deal.pbn"), pathlib.Path(folder, "layouts.lay")
        for ending in endings():
            files[0].write_text(ending.deal)
            files[1].write_text(ending.layouts)
            for moves in range(1, most + 1):
                words = ["--deal", files[0], "--layouts", files[1], "--moves", str(moves)]
                solved = subprocess.run([PROGRAM, "--job", "solve", *words], capture_output=True, check=True)
                depended, vectors = depended_on(files, solved.stdout)
                if vectors > MOST_VECTORS:
                    continue
                asked = questions([BY_RATTLE, "--job", "card", *words])
                ratios[moves].append(depended / asked)
                row = ending.name, ending.width, moves, vectors, depended, asked, depended / asked
                print("%-24s%7d%6d%6d%13d%15d%8.2f" % row, flush=True)
    for moves, rows in ratios.items():
        print("%d moves: %d endings, median %.2f, over 1.3: %d" % (moves, len(rows), statistics.median(rows), sum(it > 1.3 for it in rows)))


if __name__ == "__main__":
    main()
