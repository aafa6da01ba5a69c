"""The cases of cases/ as questions to the library: by text, as it has the job of the case, and by bits."""
import dataclasses
import pathlib
import tempfile

import cases
import jobs
import reading

# The library's call for each job that it has.
CALLS = {"solve": "report", "card": "card", "fusion": "fusion", "list": "list", "check": "check"}
FILES = {"report": ("deal", "layouts"), "card": ("deal", "layouts"), "fusion": ("deal", "layouts"), "list": ("deal",),
         "check": ("deal", "layouts", "report")}
# The options that never change what is printed, except by how many nodes are spent.
HOW = {"workers", "shards", "room", "no-table", "no-cuts"}
# The numbers that the library takes, by the bits of their types; the program's nodes if the words give none.
SIZES = {"moves": 32, "nodes": 64}
NODES, BAD_WORDS, UNREAD, SPENT = 10_000_000, 2, 3, 7


@dataclasses.dataclass(frozen=True)
class Asked:
    """A case as a question by text, with what must come of it: the status, and the text or the line."""

    case: str
    call: str
    files: tuple
    moves: int
    nodes: int
    status: int
    text: bytes


def input_files(case):
    """The bytes of the case's input files by their names."""
    with tempfile.TemporaryDirectory() as room:
        cases.lay_out(case, room)
        return {it.name: it.read_bytes() for it in pathlib.Path(room).iterdir() if it.is_file()}


def number_in(options, name, otherwise):
    """The number of an option, or none if the library's call can't be given it."""
    value = options.get(name, str(otherwise))
    is_number = value.isascii() and value.isdigit() and int(value) < 1 << SIZES[name]
    return int(value) if is_number else None


def are_for_the_library(options, status):
    """Whether the library can be asked what the words ask, so that the same must come of it."""
    if options is None or options.get("job") not in CALLS or status == UNREAD:
        return False
    needed = set(jobs.JOBS[options["job"]][0])
    if not needed <= set(options) or set(options) - needed - {"job", "nodes"} - HOW:
        return False
    wrong = {name for name, value in options.items() if name != "job" and not jobs.is_value(options["job"], name, value)}
    if wrong - set(SIZES) or (status == BAD_WORDS and not wrong):
        return False
    return not (status == SPENT and HOW & set(options))


def asked(case):
    """The case as a question by text, or none if it asks what the library's calls can't be asked."""
    out, line, status = cases.expected(case)
    options = jobs.split([word.decode(errors="replace") for word in cases.words_of(case)])
    if cases.bytes_of(case, "stdout_to") or not are_for_the_library(options, status):
        return None
    moves, nodes = number_in(options, "moves", 0), number_in(options, "nodes", NODES)
    call, there = CALLS[options["job"]], input_files(case)
    if moves is None or nodes is None or (status == BAD_WORDS and call in ("fusion", "list", "check")):
        return None
    files = tuple(there[options[name]] for name in FILES[call])
    return Asked(case, call, files, moves, nodes, status, line if status else out)


def all_asked():
    return [it for it in map(asked, cases.names_of_cases()) if it]


def set_of(cards):
    return sum(1 << card for card in cards)


def states_of(files):
    """The state in each layout of a deal file and a layout file, as playing.py has it, with trumps and the layouts' weights."""
    deal, layouts = files[:2]
    board = reading.board_of(reading.games_of(deal)[0])
    kept = reading.layouts_of(layouts, board)
    return [reading.state_of(board, it) for it in kept.layouts], board.trump, kept.weights


def by_bits(states, trump):
    """The question by bits about these states, without moves and nodes, and the layouts."""
    hands, trick, leader, need = states[0]
    position = {"declarer": set_of(hands[0]), "dummy": set_of(hands[2]), "unseen": set_of(hands[1] | hands[3]), "leader": leader,
                "need": need, "trump": trump, "trick": tuple(card for _, card in trick)}
    return position, [set_of(state[0][1]) for state in states]
