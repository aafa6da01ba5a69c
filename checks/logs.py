"""A second reading of logs, for reading.py: whether the text is a log, and its first line that isn't sound. It searches
nothing: it goes through a log line by line, over whole lists of states.
"""
import collections
import re

from playing import card_named, child, choices, is_decided, makes, seat_to_play

# Numbers have no leading zeros. Longer ones are beyond every limit.
NUMBER = rb"(?:0|[1-9][0-9]{0,9})"
CARD = rb"[SHDCshdc][2-9TJQKAtjqka]"
BITS = rb"[01]{1,256}"
LINE = re.compile(rb"(leaf|union|join) (-|%b(?:\.%b){0,51}) (%b) (-|%b(?:,%b)*) (%b(?:,%b)*)"
                  % (CARD, CARD, NUMBER, NUMBER, NUMBER, BITS, BITS))
MOST_MOVES = 26
MOST_NUMBER = (1 << 32) - 1

Line = collections.namedtuple("Line", "rule path moves cited vectors")


class Fault(Exception):
    """The first line of the file that is no line of a log."""


def line_of(text):
    """What a line says, or none."""
    found = LINE.fullmatch(text)
    if not found:
        return None
    rule, path, moves, cited, vectors = found.groups()
    cited = [] if cited == b"-" else [int(it) for it in cited.split(b",")]
    if int(moves) > MOST_MOVES or any(not 1 <= it <= MOST_NUMBER for it in cited):
        return None
    path = () if path == b"-" else tuple(card_named(it) for it in path.split(b"."))
    return Line(rule, path, int(moves), cited, vectors.split(b","))


def lines_of(text):
    """The lines of a log."""
    every = text.split(b"\n")
    whole, rest = every[:-1], every[-1]
    if not whole or whole[0] != b"alphamu log 1":
        raise Fault(1)
    lines = []
    while not (lines and len(lines) + 1 < len(whole) and whole[len(lines) + 1] == b"end"):
        at = len(lines) + 1
        line = line_of(whole[at]) if at < len(whole) else None
        if not line:
            raise Fault(at + 1)
        lines.append(line)
    if rest or len(lines) + 2 < len(whole):
        raise Fault(len(lines) + 3)
    return lines


def covers(vectors, vector):
    """Whether one of the vectors covers this one: it has a 1 wherever this one has."""
    return any(all(ours >= its for ours, its in zip(it, vector)) for it in vectors)


def greatest(vectors):
    """The vectors that no other one covers."""
    return {it for it in vectors if not covers(vectors - {it}, it)}


def both(one, other):
    return bytes(map(min, one, other))


class Walk:
    """The lines of a log, judged from the states at its root and the number of moves."""

    def __init__(self, states, moves, trump, lines):
        self.moves, self.trump, self.lines = moves, trump, lines
        self.nodes = {(): (states, 0)}

    def node(self, path):
        """The states after a path, and how many of its cards declarer's side played; none if a card may not be played."""
        if path not in self.nodes:
            before = self.node(path[:-1])
            states = child(before[0], path[-1], self.trump)[1] if before else []
            self.nodes[path] = (states, before[1] + (seat_to_play(before[0]) % 2 == 0)) if states else None
        return self.nodes[path]

    def is_sound(self, at):
        line = self.lines[at]
        found = self.node(line.path)
        if not found or line.moves != self.moves - found[1] or any(it > at for it in line.cited):
            return False
        states, below = found[0], [self.lines[number - 1] for number in line.cited]
        if any(len(it) != len(states) for it in line.vectors):
            return False
        if line.rule == b"leaf":
            return not line.cited and covers(line.vectors, b"".join(b"%d" % makes(*it, self.trump) for it in states))
        if line.moves == 0 or is_decided(states) or any(it.path[:-1] != line.path or not it.path for it in below):
            return False
        cards = [it.path[-1] for it in below]
        if line.rule == b"union":
            return (seat_to_play(states) % 2 == 0 and cards == choices(states)
                    and all(covers(line.vectors, vector) for it in below for vector in it.vectors))
        return (seat_to_play(states) % 2 == 1 and cards == sorted(set(cards)) and set(cards) <= set(choices(states)) and cards != []
                and all(covers(line.vectors, it) for it in self.meets(states, below)))

    def meets(self, states, below):
        """The meets of one vector from each line, filled with ones in the states in which the line's card isn't legal."""
        met = {b"1" * len(states)}
        for line in below:
            able = child(states, line.path[-1], self.trump)[0]
            spread = []
            for vector in line.vectors:
                bits = bytearray(b"1" * len(states))
                for place, bit in zip(able, vector):
                    bits[place] = bit
                spread.append(bytes(bits))
            met = greatest({both(one, other) for one in met for other in spread})
        return met


def unproved(lines, states, moves, trump, vectors):
    """The number of the first line that isn't sound; the number after the last line if that line doesn't prove the root; or none."""
    walk = Walk(states, moves, trump, lines)
    for at in range(len(lines)):
        if not walk.is_sound(at):
            return at + 1
    is_ended = not lines[-1].path and all(covers(vectors, it) for it in lines[-1].vectors)
    return None if is_ended else len(lines) + 1
