#!/usr/bin/env python3
"""cards.py [--jobs N] [--seconds N] [--only PATTERN] [PROGRAM]

Asks ./study for every card (`cards`) of each case in cases/ that expects a report or a card, with at most MOST_MOVES moves and
NODES nodes. In endings of at most MOST_CARDS cards a hand, with at most MOST_LAYOUTS layouts, the answer must be that of a second
reading of the definitions (playing.py, assured.py), byte for byte. In every case with an answer PROGRAM, which is that of cases.py if
you name none, must agree: `card` with the moves that the text says names the same card, whose weight is its `most`, and `fusion`
believes in the same weights. Each is asked again with three choices of the options for the search, which may change no byte. Each
answer in the forms `csv` and `json` must be what Python's modules of these names write for the values of the text, `json` with the
equal cards of each, which are found here. A case that
`card` refuses must be refused with the same line and status. Nodes may be spent only if the tree after some card, walked here, has
more than NODES. Words with a `--form` that can't be right must be refused. The exit status is 0 only if nothing differs, and if at
least LEAST texts were told.

Both programs must be there and current: ./build makes them."""
import csv
import fnmatch
import functools
import io
import json
import os
import re
import sys
from concurrent.futures import ProcessPoolExecutor

sys.dont_write_bytecode = True
import assured
import playing
import reading
from cases import STUDY, TOP, bytes_of, expected, is_ready, is_refused_alike, misunderstood, names_of_cases, parser_of, run, words_of
from options import ONE_WORKER, choices_for, job_of

MOST_CARDS, MOST_LAYOUTS, MOST_MOVES, NODES, LEAST = 3, 6, 4, 20000, 70
SPENT = 7


def best_of(vectors):
    """The vectors that no other dominates."""
    return frozenset(v for v in vectors if not any(v != w and all(b >= a for a, b in zip(v, w)) for w in vectors))


@functools.lru_cache(maxsize=None)
def front(states, moves, trump):
    """What strategies with this many moves win, the best of it."""
    if moves == 0 or playing.is_decided(states):
        return frozenset({tuple(playing.makes(*state, trump) for state in states)})
    if playing.seat_to_play(states) % 2 == 0:
        return best_of({v for card in playing.choices(states) for v in front(tuple(playing.child(states, card, trump)[1]), moves - 1, trump)})
    joined = {(True,) * len(states)}
    for card in playing.choices(states):
        able, below = playing.child(states, card, trump)
        parts = [dict(zip(able, vector)) for vector in front(tuple(below), moves, trump)]
        joined = best_of({tuple(bit and part.get(at, True) for at, bit in enumerate(vector)) for vector in joined for part in parts})
    return joined


def weight_of(weights, bits):
    return sum(weight for weight, bit in zip(weights, bits) if bit)


def row(states, weights, moves, card, trump):
    """A card, its most and least, what sampling believes, and the first of its best vectors."""
    below = tuple(playing.child(states, card, trump)[1])
    vector = max(front(below, moves - 1, trump), key=lambda it: (weight_of(weights, it), sum(it), it))
    sampled = weight_of(weights, [playing.makes(*state, trump) for state in below])
    return card, weight_of(weights, vector), assured.least(below, weights, moves - 1, trump), sampled, vector


def cards_text(states, weights, limit, trump):
    for moves in range(1, limit + 1):
        rows = [row(states, weights, moves, card, trump) for card in playing.choices(states)]
        if moves == limit or all(most == least for _, most, least, _, _ in rows):
            named = max(rows, key=lambda it: (it[1], -it[0]))[0]
            lines = [b"alphamu cards 1", b"moves %d" % moves, b"layouts %d weight %d" % (len(weights), sum(weights))]
            for card, most, least, sampled, vector in rows:
                final, bits = b"yes" if most == least else b"no", bytes(b"01"[bit] for bit in vector)
                lines.append(b"card %s most %d least %d sampled %d final %s vector %s" % (playing.name_of(card), most, least, sampled, final, bits))
            return b"\n".join(lines + [b"named " + playing.name_of(named), b""])


def root_of(case):
    """The states of a case's root, the weights of its layouts, and the trumps."""
    options = reading.ask_of([word.decode() for word in words_of(case)])[1]
    board = reading.board_of(reading.games_read(bytes_of(case, options["deal"]))[0])
    kept = reading.layouts_kept(bytes_of(case, options["layouts"]), board)
    return tuple(reading.state_of(board, layout) for layout in kept.layouts), kept.weights, board.trump


def told(case, limit):
    """The text that the case must have, or none if it is too large for a second reading."""
    states, weights, trump = root_of(case)
    if max(map(len, states[0][0])) > MOST_CARDS or len(states) > MOST_LAYOUTS:
        return None
    return cards_text(states, weights, limit, trump)


@functools.lru_cache(maxsize=None)
def may_be_spent(case, limit):
    """Whether NODES may be too few for a case."""
    states, _, trump = root_of(case)
    return playing.may_be_spent(states, limit, trump, NODES)


def asked(case, job, moves):
    """The case's files, asked for another job; of its options only those of that job."""
    options = reading.ask_of([word.decode() for word in words_of(case)])[1]
    words = [b"--job", job, b"--deal", os.fsencode(options["deal"]), b"--layouts", os.fsencode(options["layouts"])]
    return words + ([b"--moves", b"%d" % moves] if moves else [])


def values_of(text):
    """The values of a text: those of all cards together, and then those of each card."""
    head = re.search(rb"^moves (\d+)\nlayouts (\d+) weight (\d+)$", text, re.M)
    moves, layouts, weight = map(int, head.groups())
    shared = {"moves": moves, "layouts": layouts, "weight": weight, "named": re.search(rb"^named (..)$", text, re.M)[1].decode()}
    rows = re.findall(rb"^card (..) most (\d+) least (\d+) sampled (\d+) final (yes|no) vector ([01]+)$", text, re.M)
    names = ("card", "most", "least", "sampled", "final", "vector")
    return shared, [dict(zip(names, (card.decode(), int(most), int(least), int(sampled), final == b"yes", vector.decode())))
                    for card, most, least, sampled, final, vector in rows]


def csv_of(shared, rows):
    """The records that Python's writer makes of the values."""
    written, answers = io.StringIO(), {True: "yes", False: "no"}
    records = [[*row.values(), row["card"] == shared["named"], shared["moves"], shared["layouts"], shared["weight"]] for row in rows]
    writer = csv.writer(written, lineterminator="\n")
    writer.writerow([*rows[0], "named", "moves", "layouts", "weight"])
    writer.writerows([[answers.get(it, it) if isinstance(it, bool) else it for it in record] for record in records])
    return written.getvalue().encode()


def equals_of(states, name):
    """The choices that are equal to one: every card of its suit in play between them is a choice, too."""
    hands, trick, _, _ = states[0]
    in_play, ours, card = {it for hand in hands for it in hand} | {it for _, it in trick}, playing.choices(states), playing.card_named(name.encode())
    return [playing.name_of(it).decode() for it in ours if it != card and it // 13 == card // 13
            and not any(min(it, card) < other < max(it, card) for other in in_play - set(ours))]


def json_of(states, shared, rows):
    """The object that Python's writer makes of the values, with the equal cards of each."""
    cards = [{**row, "equals": equals_of(states, row["card"])} for row in rows]
    return json.dumps({"cards": cards, **shared}, sort_keys=True, separators=(",", ":")).encode() + b"\n"


def judge_forms(case, words, seconds, text):
    """What the other forms of a text say otherwise."""
    shared, rows = values_of(text)
    wrong = []
    for form, wanted in ((b"csv", csv_of(shared, rows)), (b"json", json_of(root_of(case)[0], shared, rows)), (b"text", text)):
        if run(STUDY, case, seconds, words=words + ([b"--form=json"] if form == b"json" else [b"--form", form])) != (wanted, b"", 0):
            wrong.append(f"{case}: the form {form.decode()} differs")
    return wrong


def judge_words(case, words, seconds):
    """Words with a form that can't be right, and a job that has no forms."""
    no_form, again = b"--form doesn't take this value", b"word %d isn't understood: --form" % (len(words) + 2)
    wrong = [(words + [b"--form"], b"the last option has no value"), (words + [b"--form=csv", b"--form", b"csv"], again),
             (asked(case, b"words", None) + [b"--report", b"none", b"--form", b"text"], b"the job doesn't take --form")]
    wrong += [(words + it, no_form) for it in ([b"--form", b"xml"], [b"--form", b"CSV"], [b"--form", b""], [b"--form="], [b"--form=CSV"])]
    return [f"{case}: not refused as it must be, with {b' '.join(it[-4:]).decode()}" for it, line in wrong
            if run(STUDY, case, seconds, words=it) != misunderstood(line)]


def judge_others(program, case, seconds, text):
    """What `card` and `fusion` of the program say otherwise."""
    moves = int(re.search(rb"^moves (\d+)$", text, re.M)[1])
    rows = re.findall(rb"^card (..) most (\d+) least (\d+) sampled (\d+) ", text, re.M)
    named = re.search(rb"^named (..)$", text, re.M)[1]
    most = next(it[1] for it in rows if it[0] == named)
    wrong = []
    card = run(program, case, seconds, words=asked(case, b"card", moves))[0]
    if not re.search(rb"^card %s (count|weight) %s of " % (named, most), card, re.M):
        wrong.append(f"{case}: card says {card}, and cards {named} {most}")
    fusion = run(program, case, seconds, words=asked(case, b"fusion", None))[0]
    for name, _, _, sampled in rows:
        if not re.search(rb"^card %s vector [01]+ (count|weight) %s$" % (name, sampled), fusion, re.M):
            wrong.append(f"{case}: fusion doesn't believe in {sampled} after {name}")
    return wrong


def judge_options(case, place, seconds, limit, words, text):
    """The options for the search that change a byte: one of those for one worker, and two for several, by the case's place."""
    chosen = [ONE_WORKER[place % len(ONE_WORKER)], *choices_for(place, False)[len(ONE_WORKER):]]
    found = [(choice, run(STUDY, case, seconds, words=words, more=choice)) for choice in chosen]
    return [f"{case} with {b' '.join(choice).decode()}: other bytes, or status {status}"
            for choice, (out, _, status) in found
            if (out, status) != (text, 0) and not (status == SPENT and may_be_spent(case, limit))]


def judge(program, case, place, seconds):
    """What is wrong with the text of a case, and whether there was one."""
    text, line, status = expected(case)
    job = job_of(words_of(case))
    if job not in ("solve", "card") or bytes_of(case, "fill") or bytes_of(case, "stdout_to"):
        return [], 0
    if status:
        words = [b"cards" if it == b"card" else it for it in words_of(case)]
        if job == "solve" or status == SPENT or is_refused_alike(run(STUDY, case, seconds, words=words), (text, line, status)):
            return [], 0
        return [f"{case}: not refused as by card"], 0
    limit = min(MOST_MOVES, int(reading.ask_of([word.decode() for word in words_of(case)])[1]["moves"]))
    words = asked(case, b"cards", limit) + [b"--nodes", b"%d" % NODES]
    found, _, ended = run(STUDY, case, seconds, words=words)
    if ended == SPENT:
        return [] if may_be_spent(case, limit) else [f"{case}: nodes are spent, and no tree has so many"], 0
    wanted = told(case, limit)
    wrong = [f"{case}: the cards differ"] if ended or wanted not in (None, found) else []
    if not ended:
        wrong += judge_options(case, place, seconds, limit, words, found) + judge_others(program, case, seconds, found)
        wrong += judge_forms(case, words, seconds, found) + judge_words(case, words, seconds)
    return wrong, 1


def main():
    given = parser_of("Puts the cards of alphamu's cases side by side.").parse_args()
    if not is_ready(given.program, "cards"):
        return 1
    program = os.path.abspath(given.program)
    cases = fnmatch.filter(names_of_cases(), given.only)
    with ProcessPoolExecutor(given.jobs) as pool:
        judged = list(pool.map(judge, [program] * len(cases), cases, range(len(cases)), [given.seconds] * len(cases)))
    wrong = [line for lines, _ in judged for line in lines]
    for line in wrong:
        print(line)
    number = sum(count for _, count in judged)
    print(f"cards: {number} texts, {len(wrong)} wrong")
    return 0 if number >= LEAST and not wrong else 1


if __name__ == "__main__":
    sys.exit(main())
