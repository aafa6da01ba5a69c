#!/usr/bin/env python3
"""review.py [--jobs N] [--seconds N] [--only PATTERN] [PROGRAM]

Asks ./study for the decisions (`review`) of the cases in cases/ with a deal and a layout file, with MOVES moves and NODES nodes,
from the first trick and from the last but one: of each deal with a Play section; and of each that has an answer and at most
MOST_CARDS cards a hand, played out in its first kept layout. The text must be that of a second teller: it cuts the deal file before
each card of declarer's side, finds by its own rules (reading.py, playing.py) which layouts are left and whether two legal cards
differ, and asks `cards` there for the bounds, and PROGRAM, which is that of cases.py if you name none, for the card (`card`). A file that
`card` refuses there must be refused with the same line and status, and so must a play without a decision. From the last trick but
one the CSV and the JSON must have the values of the text, byte for byte as docs/FORMS.md says. Words with a `--from` or a `--form`
that can't be right must be refused. A text may be missing for its nodes only if a tree, walked here, has more than NODES. The exit
status is 0 only if nothing differs, and if at least LEAST texts were told.

Both programs must be there and current: ./build makes them."""
import fnmatch
import json
import os
import re
import sys
from concurrent.futures import ProcessPoolExecutor

sys.dont_write_bytecode = True
import playing
import reading
from cases import CASES, STUDY, TOP, bytes_of, expected, is_ready, misunderstood, names_of_cases, parser_of, run, words_of
from options import job_of

MOVES, NODES, MOST_CARDS, LEAST, SPENT = 2, 20000, 5, 70, 7
LINE = re.compile(rb"card (\d+) trick (\d+) seat (.) played (..) most (\d+) least (\d+) named (..) most (\d+) least (\d+) "
                  rb"layouts (\d+) weight (\d+) cost (\d+) to (\d+) final (yes|no)\n")
FIELDS = b"number trick seat played most least named named_most named_least layouts weight cost cost_up_to final moves".split()
LETTERS = b"seat played named final".split()
SUMS = "costly", "costly_up_to", "greatest", "greatest_up_to"
NO_DECISION = b"", b"alphamu: no card to choose\n", 6
WHOLE, CUT = b"whole.pbn", b"cut.pbn"


def cut_file(game, board, place):
    """The deal file of a board, with its play cut before the card at a place."""
    lines = []
    for name in (b"Deal", b"Contract", b"Declarer", b"EndNeed", b"EndLead"):
        if tag := reading.first_tag(game, name):
            lines.append(b'[%s "%s"]' % (name, re.sub(rb'(["\\])', rb"\\\1", tag.value)))
    lines.append(b'[Play "%c"]' % reading.SEATS[(board.declarer + board.lead) % 4])
    for at in range(0, place, 4):
        row = {(seat - board.lead) % 4: playing.name_of(card) for seat, card in board.plays[at:min(at + 4, place)]}
        lines.append(b" ".join(row.get(column, b"-") for column in range(4)))
    return b"\n".join(lines + [b"*", b""])


def played_out(case, options):
    """The deal file of a case played out in its first kept layout, each card chosen by its place; none if the hands are long."""
    game = reading.games_read(bytes_of(case, options["deal"]))[0]
    board = reading.board_of(game)
    kept = reading.layouts_kept(bytes_of(case, options["layouts"]), board)
    state = reading.state_of(board, kept.layouts[0])
    if max(map(len, state[0])) > MOST_CARDS:
        return None
    while any(state[0]):
        seat = playing.seat_to_play([state])
        cards = playing.legal(state[0][seat], state[1])
        board.plays.append((seat, cards[5 * len(board.plays) % len(cards)]))
        state = playing.after(*state, board.trump, *board.plays[-1])
    return cut_file(game, board, len(board.plays))


def differ(states):
    """Whether two legal cards of the seat to play aren't equal: no card that is still out lies between equal cards."""
    hands, trick, _, _ = states[0]
    out = {card for hand in hands for card in hand} | {card for _, card in trick}
    groups, last = 0, None
    for card in playing.choices(states):
        between = last is not None and any(last < it < card for it in out)
        groups += last is None or between or last // 13 != card // 13
        last = card
    return groups > 1


def line_at(program, case, seconds, board, place, words, file):
    """The line of the decision at a place with its least and its greatest cost, or how `cards` ends there."""
    files = {CUT: file}
    text, line, status = run(STUDY, case, seconds, words=[b"--job", b"cards", *words, b"--moves", b"%d" % MOVES, b"--nodes", b"%d" % NODES], files=files)
    if status:
        return None, (text, line, status)
    rows = {it[0]: it for it in re.findall(rb"^card (..) most (\d+) least (\d+) ", text, re.M)}
    seat, card = board.plays[place]
    moves, layouts, named = re.search(rb"^moves (\d+)\n(layouts \d+ weight \d+)\n(?:.*\n)*named (..)$", text, re.M).groups()
    said = run(program, case, seconds, words=[b"--job", b"card", *words, b"--moves", moves], files=files)[0]
    assert re.search(rb"^card %s (count|weight) %s of " % (named, rows[named][1]), said, re.M), (case, place, said)
    played = rows[playing.name_of(card)]
    cost = max(0, max(int(it[2]) for it in rows.values()) - int(played[1])), int(rows[named][1]) - int(played[2])
    assert int(rows[named][1]) == max(int(it[1]) for it in rows.values()), (case, place)
    letter = reading.SEATS[(board.declarer + seat) % 4]
    return cost, b"card %d trick %d seat %c played %s most %s least %s named %s most %s least %s %s cost %d to %d final %s\n" % (
        place + 1, place // 4 + 1, letter, *played, *rows[named], layouts, *cost, b"yes" if cost[0] == cost[1] else b"no")


def told(program, case, seconds, whole, layouts, first):
    """The text of a deal file from a trick on with a line of an error and a status; none if some tree is too large."""
    game = reading.games_read(whole)[0]
    board = reading.board_of(game)
    plays, lines, costs = board.plays, [], []
    words = [b"--deal", CUT, b"--layouts", os.fsencode(layouts)]
    for place, (seat, _) in enumerate(plays):
        if seat % 2 or place // 4 + 1 < first:
            continue
        board.plays = plays[:place]
        try:
            kept = reading.layouts_kept(bytes_of(case, layouts), board)
        except reading.Refusal as refusal:
            status, text, line = refusal.answer
            return text, line, status
        states = tuple(reading.state_of(board, layout) for layout in kept.layouts)
        file = cut_file(game, board, place)
        board.plays = plays
        if differ(states):
            cost, line = line_at(program, case, seconds, board, place, words, file)
            if cost is None:
                return None if line[2] == SPENT and playing.may_be_spent(states, MOVES, board.trump, NODES) else line
            lines.append(line)
            costs.append(cost)
    if not lines:
        return NO_DECISION
    last = b"decisions %d costly %d to %d greatest %d to %d\n" % (len(costs), *sums(costs))
    return b"".join([b"alphamu review 1\n", b"moves %d\n" % MOVES, *lines, last]), b"", 0


def sums(costs):
    """How many are certain to have cost something and how many may have, and the greatest cost that is certain and that may be."""
    least, most = zip(*costs)
    return sum(map(bool, least)), sum(map(bool, most)), max(least), max(most)


def decision_of(row):
    """The decision of a row in JSON."""
    said = {name.decode(): value.decode() if name in LETTERS else int(value) for name, value in zip(FIELDS, row)}
    said["named"] = {"card": said["named"], "least": said.pop("named_least"), "most": said.pop("named_most")}
    said["cost"] = {"final": said.pop("final") == "yes", "least": said["cost"], "most": said.pop("cost_up_to")}
    return said


def csv_of(text):
    """The CSV that has the values of a text."""
    moves = re.search(rb"^moves (\d+)$", text, re.M)[1]
    return b"".join(b",".join(row) + b"\n" for row in [FIELDS, *([*row, moves] for row in LINE.findall(text))])


def json_of(text):
    """The JSON that has the values of a text."""
    numbers = map(int, re.search(rb" costly (\d+) to (\d+) greatest (\d+) to (\d+)\n$", text).groups())
    decisions = [decision_of(row) for row in LINE.findall(text)]
    said = {"decisions": decisions, "moves": MOVES, **dict(zip(SUMS, numbers))}
    return json.dumps(said, sort_keys=True, separators=(",", ":")).encode() + b"\n"


def judge_forms(case, words, seconds, files, text):
    """What differs between a text and its other forms. The job and the form are each asked for by one word."""
    words = [b"--job=review", *words[2:]]
    wanted = {b"text": text, b"csv": csv_of(text), b"json": json_of(text)}
    return [f"{case}: another {form.decode()}" for form, content in wanted.items()
            if run(STUDY, case, seconds, words=[*words, b"--form=" + form], files=files) != (content, b"", 0)]


def judge_words(case, words, seconds):
    """Words with a trick or a form that can't be right, and a job that begins with no trick."""
    def at(place, word):
        return b"word %d isn't understood: %s" % (len(words) + place, word)
    no_trick = b"--from doesn't take this value"
    more = [([b"--from"], b"the last option has no value"), ([b"--from=1", b"--from", b"1"], at(2, b"--from")),
            ([b"--form=xml"], b"--form doesn't take this value"), ([b"--form=csv", b"--form", b"csv"], at(2, b"--form")),
            ([b"--job=review"], at(1, b"--job=review"))]
    more += [(it, no_trick) for it in ([b"--from", b"0"], [b"--from", b"14"], [b"--from", b"01"], [b"--from", b""], [b"--from="], [b"--from=14"])]
    wrong = [(words + it, line) for it, line in more]
    wrong.append(([b"cards" if it == b"review" else it for it in words] + [b"--from", b"1"], b"the job doesn't take --from"))
    return [f"{case}: not refused as it must be, with {b' '.join(it[-4:]).decode()}" for it, line in wrong
            if run(STUDY, case, seconds, words=it) != misunderstood(line)]


def judge_file(program, case, seconds, whole, layouts):
    """What is wrong with the texts of a deal file, and how many there were."""
    try:
        tricks = len(reading.board_of(reading.games_read(whole)[0]).plays) // 4
    except reading.Refusal:
        tricks = 0
    asked = [b"--job", b"review", b"--deal", WHOLE, b"--layouts", os.fsencode(layouts), b"--moves", b"%d" % MOVES, b"--nodes", b"%d" % NODES]
    wrong, number = [], 0
    for first in {1, max(1, tricks - 1)}:
        found = run(STUDY, case, seconds, words=asked + ([b"--from", b"%d" % first] if first > 1 else []), files={WHOLE: whole})
        try:
            wanted = told(program, case, seconds, whole, layouts, first)
        except reading.Refusal as refusal:
            status, text, line = refusal.answer
            wanted = text, line, status
        if wanted is not None and found != wanted:
            wrong.append(f"{case} from trick {first}: {found}, and not {wanted}")
        elif first > 1 and not found[2]:
            wrong += judge_forms(case, [*asked, b"--from=%d" % first], seconds, {WHOLE: whole}, found[0])
        number += wanted is not None and not wanted[2]
    return wrong + judge_words(case, asked, seconds), number


def judge(program, case, seconds):
    """What is wrong with the texts of a case, and how many there were."""
    words = words_of(case)
    if job_of(words) not in ("solve", "card", "fusion") or bytes_of(case, "fill") or bytes_of(case, "stdout_to"):
        return [], 0
    ask = reading.ask_of([word.decode() for word in words])
    if ask is None or not os.path.isfile(os.path.join(CASES, case, ask[1]["deal"])):
        return [], 0
    whole = bytes_of(case, ask[1]["deal"])
    wholes = [whole] if b"[Play" in whole else []
    if not expected(case)[2] and (whole := played_out(case, ask[1])):
        wholes.append(whole)
    judged = [judge_file(program, case, seconds, it, ask[1]["layouts"]) for it in wholes]
    return [line for wrong, _ in judged for line in wrong], sum(number for _, number in judged)


def main():
    given = parser_of("Reviews the plays of alphamu's cases.").parse_args()
    if not is_ready(given.program, "review"):
        return 1
    program = os.path.abspath(given.program)
    cases = fnmatch.filter(names_of_cases(), given.only)
    with ProcessPoolExecutor(given.jobs) as pool:
        judged = list(pool.map(judge, [program] * len(cases), cases, [given.seconds] * len(cases)))
    wrong = [line for lines, _ in judged for line in lines]
    for line in wrong:
        print(line)
    number = sum(count for _, count in judged)
    print(f"review: {number} texts, {len(wrong)} wrong")
    return 0 if number >= LEAST and not wrong else 1


if __name__ == "__main__":
    sys.exit(main())
