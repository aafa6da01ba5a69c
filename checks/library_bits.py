"""Questions by bits compared with the same questions by text, and both as records for the programs of checks/library/."""
import ctypes
import re
import struct

import cases
import jobs
import library_cases
import playing

CALLS = ("report", "card", "fusion", "list", "check", "bits_card", "bits_cards", "bits_front", "bits_strategy")
SECONDS = 300
# What a strategy past the front is refused with, and the most nodes of one that is played out.
NO_VECTOR, MOST_PLAYED = 47, 5000
# The vectors of a report with their weights, what it says of the card, and the lines of `fusion`.
VECTOR = re.compile(r"^vector ([01]+) (?:count|weight) (\d+)$", re.M)
CARD = re.compile(r"^card (\w\w) (?:count|weight) (\d+)", re.M)
BELIEVED = re.compile(r"^card (\w\w) vector ([01]+) (?:count|weight) (\d+)$", re.M)


def program(case, job, *more):
    """What the program prints for the files of a case, or none if it prints nothing."""
    options = jobs.split([it.decode() for it in cases.words_of(case)])
    files = [f"--{it}={options[it]}".encode() for it in ("deal", "layouts")]
    out, _, status = cases.run(cases.PROGRAM, case, SECONDS, words=[b"--job", job.encode(), *files, *more])
    return out.decode() if status == 0 else None


def plan_said(lines):
    """The plan whose lines of a report come next: for each card that may be played, its name and the plan after it."""
    word, *value = next(lines).split()
    if word == "hear":
        return [(next(lines).split()[1], plan_said(lines)) for _ in range(int(value[0]))]
    return [(value[0], plan_said(lines))] if word == "play" else []


def plans_of(text):
    """The plan below each vector of a report."""
    lines = iter(text.splitlines())
    return {found[1]: plan_said(lines) for it in lines if (found := VECTOR.match(it))}


class Compared:
    """A case with its question by bits, and what differs."""

    def __init__(self, alphamu, asked, has_program):
        self.alphamu, self.asked, self.has_program, self.told = alphamu, asked, has_program, []
        self.states, self.trump, self.weights = library_cases.states_of(asked.files)
        position, self.lefts = library_cases.by_bits(self.states, self.trump)
        moves = asked.moves if asked.call != "fusion" else 1
        self.question = alphamu.Question(**position, moves=moves, nodes=asked.nodes)

    def expect(self, what, found, right):
        if found != right:
            self.told.append(f"{what}: {found}, and not {right}")

    def weight(self, vector):
        return sum(weight for weight, bit in zip(self.weights, vector) if bit == "1")

    def compare(self):
        """Everything that the calls by bits say of the case. What differs, one line each."""
        choice, worths = self.question.card(self.lefts, self.weights), self.question.worths(self.lefts, self.weights)
        front = self.question.front(self.lefts, self.weights)
        named = self.alphamu.card_name(choice.card), choice.weight
        best = max(it.weight for it in worths)
        self.expect("the best worth", (next(self.alphamu.card_name(it.card) for it in worths if it.weight == best), best), named)
        self.expect("the front's best weight", max(map(self.weight, front)), choice.weight)
        for it in worths:
            self.look_at(it, front)
        self.compare_case(named, front)
        self.compare_strategies(front)
        self.compare_fusion(worths)
        return [f"{self.asked.case}, by bits: {it}" for it in self.told]

    def look_at(self, worth, front):
        name = self.alphamu.card_name(worth.card)
        self.expect(f"the weight of {name}'s vector", self.weight(worth.vector), worth.weight)
        self.expect(f"{name} worth at most what a simulation says", worth.weight <= worth.double_dummy, True)
        is_covered = any(all(a >= b for a, b in zip(it, worth.vector)) for it in front)
        self.expect(f"{name}'s vector is dominated by one of the front", is_covered, True)

    def compare_case(self, named, front):
        """With what the case expects of the program."""
        text = self.asked.text.decode()
        if self.asked.call == "report":
            # A report has the heaviest first.
            vectors = sorted(VECTOR.findall(text), key=lambda it: (it[0].count("1"), it[0]), reverse=True)
            self.expect("the front", [(it, self.weight(it)) for it in front], [(it, int(weight)) for it, weight in vectors])
        if self.asked.call == "fusion":
            text = self.has_program and program(self.asked.case, "card", b"--moves", b"1") or ""
        if found := CARD.search(text):
            self.expect("the card", named, (found[1], int(found[2])))

    def compare_fusion(self, worths):
        text = self.asked.text.decode() if self.asked.call == "fusion" else self.has_program and program(self.asked.case, "fusion")
        if not text:
            return
        rows = BELIEVED.findall(text)
        found = [(self.alphamu.card_name(it.card), it.double_dummy) for it in worths]
        self.expect("what a simulation says", found, [(card, int(weight)) for card, _, weight in rows])
        if self.question.moves == 1:
            self.expect("what one move is worth", [it.vector for it in worths], [vector for _, vector, _ in rows])

    def compare_strategies(self, front):
        """The strategies of the first, the middle and the last vector with those of the report, and each played out."""
        plans = plans_of(self.asked.text.decode()) if self.asked.call == "report" else {}
        # With all moves a strategy stops only if the result is decided.
        is_whole = self.question.moves >= 2 * max(map(len, self.states[0][0]))
        for place in sorted({0, len(front) // 2, len(front) - 1}):
            found = self.question.strategy(self.lefts, self.weights, place)
            if plans:
                self.expect(f"the strategy for {front[place]}", self.shown(found, 0), plans[front[place]])
            if is_whole and len(found.nodes) < MOST_PLAYED:
                vector = "".join("01"[self.is_won(found, 0, it)] for it in self.states)
                self.expect(f"what the strategy for {front[place]} wins", vector, front[place])
        try:
            self.question.strategy(self.lefts, self.weights, len(front))
            self.expect("a strategy past the front", 0, NO_VECTOR)
        except self.alphamu.AlphamuError as refusal:
            self.expect("a strategy past the front", refusal.status, NO_VECTOR)

    def shown(self, strategy, place):
        """What a strategy goes on with at a place, as plans_of has it."""
        replies = strategy.nodes[place].replies
        return [(self.alphamu.card_name(strategy.nodes[it].card), self.shown(strategy, it)) for it in replies]

    def is_won(self, strategy, place, state):
        """Whether the contract is made in a state, whatever the defenders play, if declarer's side plays the strategy from a place on."""
        hands, trick, leader, _ = state
        seat = (leader + len(trick)) % 4
        replies = [it for it in strategy.nodes[place].replies if strategy.nodes[it].card in playing.legal(hands[seat], trick)]
        if not replies:
            return playing.makes(*state, self.trump)
        return all(self.is_won(strategy, it, playing.after(*state, self.trump, seat, strategy.nodes[it].card)) for it in replies)

    def records(self, calls=CALLS[5:]):
        """The question in these of the calls by bits, each with the answer that it has now."""
        given = self.question._given(self.lefts, self.weights)
        parts = [bytes(given[0]), bytes(given[1]), bytes(given[3])]
        for call in calls:
            yield record(call, 0, 0, parts, 0, self.answer(call, given))

    def answer(self, call, given):
        """The bytes that a call writes."""
        if call == "bits_card":
            it = self.question.card(self.lefts, self.weights)
            return struct.pack("<2I", it.card, it.weight)
        kind = {"bits_cards": self.alphamu._Worth, "bits_front": ctypes.c_uint64, "bits_strategy": self.alphamu._Node}[call]
        # The strategy of the first vector.
        given = [*given, 0] if call == "bits_strategy" else given
        found = self.question._all(getattr(self.alphamu._library, "alphamu_" + call), kind, 4096, given)
        if call == "bits_front":
            return struct.pack(f"<{len(found)}Q", *found)
        if call == "bits_strategy":
            return b"".join(struct.pack("<2QI4x", it.first_reply, it.replies, it.card) for it in found)
        return b"".join(struct.pack("<4Q3I4x", *it.vector, it.card, it.weight, it.double_dummy) for it in found)


def record(call, moves, nodes, given, status, answer):
    """A question with its right answer, as checks/library/questions.c reads it."""
    def part(data):
        return struct.pack("<Q", len(data)) + data + bytes(-len(data) % 8)
    head = struct.pack("<IIQQ", CALLS.index(call), status, moves, nodes)
    return head + b"".join(map(part, [*given, *[b""] * (3 - len(given)), answer]))


def record_of(asked):
    """A case as a record."""
    return record(asked.call, asked.moves, asked.nodes, asked.files, asked.status, asked.text)


def write(path, records):
    with open(path, "wb") as file:
        file.write(struct.pack("<Q", len(records)) + b"".join(records))
