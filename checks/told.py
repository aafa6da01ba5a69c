#!/usr/bin/env python3
"""told.py [--jobs N] [--seconds N] [--only PATTERN] [PROGRAM]

Tells the report of each case in cases/ that expects one, as docs/definitions/told-plans.md says, and compares the text with that of
a program for the job `words`, with the report and with the case's moves in its place. If you name no program it is alphamu_study. The layouts of a step are found
by following the report's plan in each layout, with double dummy as plain minimax (playing.py). The exit status is 0 only if
nothing differs and something was told.
"""
import fnmatch
import os
import sys
from concurrent.futures import ThreadPoolExecutor

import cases
import reading
from options import job_of, with_job
from playing import after, child, choices, legal, makes, name_of, seat_to_play

COMPASS = ("North", "East", "South", "West")
# The seats in the order in which they are told: declarer, dummy, and the defenders.
SEATS = (0, 2, 1, 3)
MANNERS = ("lead", "play", "ruff with", "throw")
# Reports with more lines are left out: double dummy is slow here.
MOST_LINES = 3000


class Disagree(Exception):
    """Two plans play differently after the same cards."""


def both(plan, other):
    """The plan that has the replies of both."""
    if isinstance(plan, list) and isinstance(other, list):
        ours, theirs = dict(plan), dict(other)
        return [(card, both(ours[card], theirs[card]) if card in ours and card in theirs else ours.get(card, theirs.get(card)))
                for card in sorted({*ours, *theirs})]
    if isinstance(plan, tuple) and isinstance(other, tuple) and plan[0] == other[0]:
        return plan[0], both(plan[1], other[1])
    if plan is None and other is None:
        return None
    raise Disagree


def groups_of(replies):
    """The cards whose replies agree, each with the plan of them all."""
    groups = []
    for card, plan in sorted(replies, key=lambda reply: reply[0]):
        for at, (cards, shared) in enumerate(groups):
            try:
                groups[at] = [*cards, card], both(shared, plan)
                break
            except Disagree:
                continue
        else:
            groups.append(([card], plan))
    return groups


def numbers_text(numbers):
    """`1, 3, 8 to 10`"""
    runs = []
    for number in numbers:
        if runs and number == runs[-1][-1] + 1:
            runs[-1].append(number)
        else:
            runs.append([number])
    return ", ".join(f"{run[0]} to {run[-1]}" if len(run) > 2 else ", ".join(map(str, run)) for run in runs)


def listed(cards):
    names = [name_of(card).decode() for card in cards]
    return " or ".join(filter(None, (", ".join(names[:-1]), names[-1])))


def manner(trick, card, trump):
    if not trick:
        return 0
    led = trick[0][1] // 13
    return 1 if card // 13 == led else 2 if card // 13 == trump else 3


class Teller:
    """A strategy of the report: its plan, and the states of its layouts."""

    def __init__(self, board, plan, states):
        self.declarer, self.trump, self.plan, self.states, self.lines = board.declarer, board.trump, plan, states, []

    def name(self, seat):
        return COMPASS[(self.declarer + seat) % 4]

    # The layouts of a step.

    def after(self, state, card):
        return after(*state, self.trump, seat_to_play([state]), card)

    def held(self, state):
        return legal(state[0][seat_to_play([state])], state[1])

    def wins(self, plan, state):
        if plan is None:
            return makes(*state, self.trump)
        if isinstance(plan, tuple):
            return self.wins(plan[1], self.after(state, plan[0]))
        return all(self.wins(dict(plan)[card], self.after(state, card)) for card in self.held(state))

    def places(self, sets, state):
        """Where one card of each set leads in a layout, if it is legal and the plan foresees it."""
        found = [(self.plan, state)]
        for cards in sets:
            found = [(rest, self.after(at, card)) for plan, at in found
                     for card, rest in (plan if isinstance(plan, list) else [plan] if plan else []) if card in cards and card in self.held(at)]
        return found

    def outcome(self, sets):
        made, failed = [], []
        for number, state in enumerate(self.states, 1):
            found = [self.wins(*place) for place in self.places(sets, state)]
            if found:
                (made if all(found) else failed).append(number)
        said = [f"made in {numbers_text(made)}"] * bool(made) + [f"fails in {numbers_text(failed)}"] * bool(failed)
        return f" ({'; '.join(said)})"

    def given_up(self, sets):
        given = [number for number, state in enumerate(self.states, 1) if any(
            isinstance(plan, tuple) and makes(*at, self.trump) and not makes(*self.after(at, plan[0]), self.trump)
            for plan, at in self.places(sets, state))]
        return f", giving up {numbers_text(given)}" if given else ""

    # The words.

    def turn(self, cards, nodes):
        said = []
        for seat in SEATS:
            for way, verb in enumerate(MANNERS):
                own = [card for card in sorted(cards) if any(
                    seat_to_play(node) == seat and card in choices(node) and manner(node[0][1], card, self.trump) == way for node in nodes)]
                if own and seat % 2 == 0:
                    said.append(f"{verb} {listed(own)} from {'hand' if seat == 0 else 'dummy'}")
                elif own:
                    said.append(f"{self.name(seat)} {verb.replace(' ', 's ') if ' ' in verb else verb + 's'} {listed(own)}")
        return ", or ".join(said)

    def next_nodes(self, cards, nodes):
        return [child(node, card, self.trump)[1] for node in nodes for card in sorted(cards) if card in choices(node)]

    def end(self, nodes):
        if all(node[0][3] == 0 for node in nodes):
            return "the contract is made"
        if all(node[0][3] > max(map(len, node[0][0])) for node in nodes):
            return "the contract is down"
        return "the plan ends here"

    def tell(self, front, said, depth, plan, sets, nodes):
        """Adds the line of this front, of which this is said so far, and the lines below it."""
        while True:
            if plan is None:
                self.lines.append(f"{front} {'; '.join([*said, self.end(nodes)])}.")
                return
            groups = [([plan[0]], plan[1])] if isinstance(plan, tuple) else groups_of(plan)
            if len(groups) > 1:
                self.lines.append(f"{front} {'; '.join(said)}." if said else front)
                for cards, rest in groups:
                    follows = self.next_nodes(cards, nodes)
                    below = f"{'  ' * (depth + 1)}If {self.turn(cards, nodes)}{self.outcome([*sets, cards])}:"
                    self.tell(below, self.winner(follows), depth + 1, rest, [*sets, cards], follows)
                return
            cards, rest = groups[0]
            given = self.given_up(sets) if isinstance(plan, tuple) else ""
            said = [*said, self.turn(cards, nodes) + given]
            nodes, sets, plan = self.next_nodes(cards, nodes), [*sets, cards], rest
            said += self.winner(nodes)

    def winner(self, nodes):
        leader = nodes[0][0][2]
        return [f"{self.name(leader)} wins the trick"] if all(not node[0][1] and node[0][2] == leader for node in nodes) else []

    def text(self):
        self.tell(f"Now{self.outcome([])}:", [], 0, self.plan, [], [self.states])
        return "".join(f"{line}\n" for line in self.lines)


def told_text(board, kept, report):
    states = [reading.state_of(board, layout) for layout in kept.layouts]
    word = reading.WORDS[kept.version()].decode()
    told = ["alphamu words 1\n"]
    for bits, won, plan in reading.report_of(report)[2]:
        told += [f"vector {bits.decode()} {word} {won}\n", Teller(board, plan, states).text()]
    return "".join(told).encode()


def judge(program, case, seconds):
    """What is wrong with the words for the report of a case, if anything."""
    given = reading.ask_of([word.decode() for word in cases.words_of(case)])[1]
    report = cases.expected(case)[0]
    deal, layouts = (cases.bytes_of(case, given[it]) for it in ("deal", "layouts"))
    board = reading.board_of(reading.games_read(deal)[0])
    wanted = told_text(board, reading.layouts_kept(layouts, board), report)
    asked = ["--job", "words", "--deal", given["deal"], "--layouts", given["layouts"], "--report", "told.report"]
    searched = with_job(cases.words_of(case), b"words")
    for words, files in ((asked, {b"told.report": report}), (searched, {})):
        out, err, status = cases.run(program, case, seconds, words=words, files=files)
        if status or out != wanted:
            lines = [f"{mine!r}, and not {theirs!r}" for mine, theirs in zip(out.splitlines(), wanted.splitlines()) if mine != theirs]
            return f"{case}: exit status {status} {err.decode()}; {lines[:3]}"
    return None


def main():
    parser = cases.parser_of("Tells the reports of alphamu's cases once more.")
    parser.set_defaults(program=cases.STUDY)
    given = parser.parse_args()
    lacking = given.program == cases.STUDY and cases.lacks_program()
    if lacking:
        print(f"told: {lacking}")
        return 1
    told = [case for case in fnmatch.filter(cases.names_of_cases(), given.only)
            if job_of(cases.words_of(case)) == "solve" and cases.expected(case)[2] == 0 and cases.expected(case)[0].count(b"\n") <= MOST_LINES]
    with ThreadPoolExecutor(given.jobs) as pool:
        found = [line for line in pool.map(lambda case: judge(given.program, case, given.seconds), told) if line]
    for line in found:
        print(line)
    print(f"told: {len(told)} reports told, {len(found)} differ")
    return 1 if found or not told else 0


if __name__ == "__main__":
    sys.exit(main())
