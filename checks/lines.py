#!/usr/bin/env python3
"""lines.py [--jobs N] [--seconds N] [--only PATTERN] [PROGRAM]

Asks ./study for the games (`lines`) of each case in cases/ that expects a report, if its hands have at most MOST_TRICKS cards and
it has at most MOST_GAMES games. The answer must be that of a second reading of the definitions (reading.py, playing.py), byte for
byte, with the case's report and with its moves in place of the report. `list` of PROGRAM, which is that of cases.py if you name none, must read the first READ games of each, and give exactly the game's
own layout. A report that `check` refuses must be refused with the same line and status. The exit status is 0 only if nothing
differs, and if at least LEAST games were told.

Both programs must be there and current: ./build makes them."""
import fnmatch
import os
import sys
from concurrent.futures import ProcessPoolExecutor

sys.dont_write_bytecode = True
import reading
from cases import STUDY, TOP, bytes_of, expected, is_ready, is_refused_alike, names_of_cases, parser_of, run, words_of
from options import job_of, with_job
from playing import after, legal, makes, name_of, winner_of

REPORT, GAME = b"report.of.the.case", b"game.of.the.case"
COPIED = b"Dealer", b"Vulnerable", b"Contract"
MOST_TRICKS, MOST_GAMES, READ, LEAST = 6, 300, 3, 300


def rest_of(plan, card):
    """What is left of a plan after a card; a plan that has stopped stays so."""
    if plan is None:
        return None
    return plan[1] if isinstance(plan, tuple) else next((below for it, below in plan if it == card), None)


def played(state, seat, card, trump):
    return after(*state, trump, seat, card)


def wins(plan, state, trump):
    if plan is None:
        return makes(*state, trump)
    hands, trick, leader, _ = state
    seat = (leader + len(trick)) % 4
    if isinstance(plan, tuple):
        return wins(plan[1], played(state, seat, plan[0], trump), trump)
    able = legal(hands[seat], trick)
    return all(wins(below, played(state, seat, card, trump), trump) for card, below in plan if card in able)


def play_out(plan, state, trump):
    """Seats and cards from the state to the end: declarer's side by the plan, and defenders who beat it if they can."""
    cards = []
    while state[1] or any(state[0]):
        seat = (state[2] + len(state[1])) % 4
        able = legal(state[0][seat], state[1])
        if seat % 2:
            card = next((it for it in able if not wins(rest_of(plan, it), played(state, seat, it, trump), trump)), able[0])
        elif isinstance(plan, tuple):
            card = plan[0]
        else:
            card = next((it for it in able if makes(*played(state, seat, it, trump), trump)), able[0])
        plan, state = rest_of(plan, card), played(state, seat, card, trump)
        cards.append((seat, card))
    return cards, state[3] == 0


def tag(name, value):
    return b'[%s "%s"]\n' % (name, value.replace(b"\\", b"\\\\").replace(b'"', b'\\"'))


def letter(board, seat):
    return reading.SEATS[(board.declarer + seat) % 4:][:1]


def game_text(tags, board, layout, event, number, cards):
    tricks = [cards[at:at + 4] for at in range(0, len(cards), 4)]
    won = sum(winner_of(trick, board.trump) % 2 == 0 for trick in tricks)
    rows = [dict(trick) for trick in tricks]
    copied = [tag(name, tags[name]) if name in tags else b"" for name in COPIED]
    hands = board.hands[0], layout[0], board.hands[2], layout[1]
    parts = [
        tag(b"Event", event), tag(b"Board", b"%d" % number), copied[0], copied[1],
        tag(b"Deal", letter(board, 0) + b":" + b" ".join(map(reading.hand_text, hands))), tag(b"Declarer", letter(board, 0)), copied[2],
        tag(b"Result", b"%d" % won) if board.tricks == 13 else b"", tag(b"EndNeed", b"%d" % board.need),
        tag(b"EndLead", letter(board, board.lead)), tag(b"Play", letter(board, board.lead)),
        *(b" ".join(name_of(row[(board.lead + at) % 4]) for at in range(4)) + b"\n" for row in rows), b"*\n\n"]
    return b"".join(parts)


def games_told(deal, layouts, report):
    """The games that must be told, or none if there are too many."""
    first = reading.games_read(deal)[0]
    board = reading.board_of(first)
    kept = reading.layouts_kept(layouts, board)
    _, _, entries = reading.report_of(report)
    if board.tricks > MOST_TRICKS and board.tricks - len(board.plays) // 4 > MOST_TRICKS or len(entries) * len(kept.layouts) > MOST_GAMES:
        return None
    tags = {it.name: it.value for it in reversed(first)}
    games = []
    for line, (bits, _, plan) in enumerate(entries, 1):
        for place, layout in enumerate(kept.layouts):
            cards, made = play_out(plan, reading.state_of(board, layout), board.trump)
            assert made == (bits[place:place + 1] == b"1")
            event = b"Line %d of %d, layout %d: %s" % (line, len(entries), kept.numbers[place], b"made" if made else b"down")
            text = game_text(tags, board, layout, event, len(games) + 1, board.plays + cards)
            games.append((text, reading.deal_text(board, layout)))
    return games


def judge(program, case, seconds):
    """What is wrong with the games of a case, and how many there are."""
    text, _, status = expected(case)
    if status or job_of(words_of(case)) != "solve":
        return [], 0
    options = reading.ask_of([word.decode() for word in words_of(case)])[1]
    files = [os.fsencode(options[it]) for it in ("deal", "layouts")]
    try:
        games = games_told(*(bytes_of(case, os.fsdecode(it)) for it in files), text)
    except AssertionError:
        return [f"{case}: a line of play doesn't end as its vector says"], 0
    if games is None:
        return [], 0
    words = [b"--job", b"lines", b"--deal", files[0], b"--layouts", files[1], b"--report", REPORT]
    wanted = b"% alphamu lines 1\n" + b"".join(game for game, _ in games), b"", 0
    wrong = [] if run(STUDY, case, seconds, words=words, files={REPORT: text}) == wanted else [f"{case}: the games differ"]
    if run(STUDY, case, seconds, words=with_job(words_of(case), b"lines")) != wanted:
        wrong.append(f"{case}: the games of a report that is searched for differ")
    for game, deal in games[:READ]:
        found = run(program, case, seconds, words=[b"--job", b"list", b"--deal", GAME], files={GAME: game})
        if found != (b"% alphamu layouts 1\n" + deal + b"\n", b"", 0):
            wrong.append(f"{case}: alphamu reads a game as {found}")
    return wrong, len(games)


def judge_refusals(program, seconds):
    """Reports that `check` refuses, and words that name no job of the study's."""
    wrong, number = [], 0
    for case in names_of_cases():
        text, line, status = expected(case)
        if job_of(words_of(case)) == "check" and status and not bytes_of(case, "fill"):
            words = [b"lines" if it == b"check" else it for it in words_of(case)]
            if not is_refused_alike(run(STUDY, case, seconds, words=words), (text, line, status)):
                wrong.append(f"{case}: not refused as by check")
            number += 1
    return wrong, number


def main():
    parser = parser_of("Tells the strategies of alphamu's cases as games.")
    given = parser.parse_args()
    if not is_ready(given.program, "lines"):
        return 1
    program = os.path.abspath(given.program)
    cases = fnmatch.filter(names_of_cases(), given.only)
    with ProcessPoolExecutor(given.jobs) as pool:
        told = list(pool.map(judge, [program] * len(cases), cases, [given.seconds] * len(cases)))
    refusals, refused = judge_refusals(program, given.seconds)
    wrong = [line for lines, _ in told for line in lines] + refusals
    for line in wrong:
        print(line)
    number = sum(count for _, count in told)
    print(f"lines: {number} games told, {refused} reports refused, {len(wrong)} wrong")
    return 0 if number >= LEAST and refused and not wrong else 1


if __name__ == "__main__":
    sys.exit(main())
