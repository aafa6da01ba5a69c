#!/usr/bin/env python3
"""damaged.py [--count N] [--first N] [--seed N] [--jobs N] [--seconds N] [--keep FOLDER] [PROGRAM]

Runs a program on damaged deal files, layout files, reports, logs and words, and compares exit status, line and output with a
second reading of the same rules (checks/reading.py). If you name no program it is the proved one, which ./build makes.

A run is made from its number and the seed alone. It takes the files of a case and damages one of them, or the words, in one
to four places. A damaged deal or layout file may still be read; to compare what was read, many runs judge a report whose head
the second reading has written. When files and words are sound, only the status is compared for jobs that search or write a
log, and for `boards` also which games are refused and how.

Prints each run that differs, keeps its files in a folder, and prints how often each status came. The exit status is 0 only if
no run differs.
"""
import argparse
import collections
import multiprocessing
import os
import random
import re
import signal
import sys
import tempfile

sys.dont_write_bytecode = True
import cases
import logs
import reading

NAMES = {"deal": b"deal.pbn", "layouts": b"layouts.lay", "report": b"report.txt", "log": b"log.txt"}
# The layout files of the first games, for `boards`.
OF_GAMES = [b"layouts.lay.%d" % number for number in (1, 2, 3)]
# The files that a case needs before it is damaged in this way.
NEEDED = {"deal": ("deal",), "layouts": ("deal", "layouts"), "report": ("deal", "layouts", "report"),
          "log": ("deal", "layouts", "report", "log"), "words": ()}
# How often each kind of damage comes.
KINDS = ("deal",) * 8 + ("layouts",) * 6 + ("report",) * 5 + ("log",) * 4 + ("words",)
# Cases with a longer file than this aren't damaged.
MOST_BYTES = 20000
# With more tricks double dummy takes too long, above all in the second reading.
MOST_TRICKS = 4
# What a search may end with.
SEARCHED = (0, 7, 17)
MARKS = [b" ", b"\t", b"\r", b"\n", b"\r\n", b"\n\n", b"\n \t\n", b"%", b"{", b"}", b";", b'"', b"\\", b"[", b"]", b"#", b"-",
         b"*", b"+", b"!", b"?", b"$3", b"=1=", b".", b":", b"\x00", b"\x07", b"\x0b", b"\x0c", b"\x1a", b"\x7f", b"\x80", b"\xff",
         b"\xef\xbb\xbf", b"\xc3\xa9", b"0", b"1", b"9", b"10", b"13", b"14", b"S", b"n", b"X", b"T", b"x"]
SNIPPETS = {
    "deal": [b'[Deal "N:32... - KJ... -"]', b'[Declarer "E"]', b'[Contract "3NTX"]', b'[Contract "Pass"]', b'[EndNeed "2"]',
             b'[EndLead "W"]', b'[Play "N"]', b'[Event "a \\"b\\" ; { c"]', b"\n*\n", b"\n- - - -\n", b"S2", b"SA", b"HT", b"D9!?",
             b"c7", b"[ Note \"1:x\" ]", b"{ one\n\n% two }", b'[Play "S"]\nS2 S7\n*', b'"S2"', b"=x=", b"$", b"[Deal"],
    "layouts": [b"N:32... A7... KJ... Q5...", b"E:A7... KJ... Q5... 32...", b"-", b"...", b"% more\n", b"10", b"N:", b" :", b"W:", b"3 ", b"0 ", b"007 ",
                b"1000000 ", b"1000001 ", b"2\t", b"5", b"1 1 ", b"5 N:32... A7... KJ... Q5...\n"],
    "report": [b"alphamu report 1\n", b"moves 2\n", b"moves 26\n", b"moves 0\n", b"front 1\n", b"front 4294967296\n", b"vector 10 count 1\n",
               b"play S2\n", b"hear 3\n", b"hear 53\n", b"on SA\n", b"stop\n", b"card S2 count 1\n", b"end\n", b"kept 1 2\n", b"on sq\n",
               b"alphamu report 2\n", b"weights 1 3\n", b"vector 01 weight 3\n", b"card S2 weight 3\n", b" weight ", b"256000001"],
    "log": [b"alphamu log 1\n", b"end\n", b"leaf S2 0 - 11\n", b"leaf - 1 - 11\n", b"union - 1 1,2 11\n", b"union", b"join", b"leaf", b"-",
            b"S2.S7", b".SA", b",1", b"1,2", b"11", b"00", b",01", b"1", b"26", b"27", b"4294967295", b"4294967296", b" ", b"s3"],
    "words": [b"--job", b"--job=check", b"--deal", b"--layouts=layouts.lay", b"--moves", b"--moves=2", b"--nodes", b"--number", b"7", b"65",
              b"--workers=4", b"--shards", b"--room=65536", b"--no-table", b"--no-cuts", b"--no-cuts=1", b"--", b"-", b"-m", b"--help",
              b"=", b"--=", b"--deal=", b"solve", b"made", b"0", b"002", b"18446744073709551616", b"+2", b"\xff", b"deal.pbn",
              b"prove", b"audit", b"match", b"--log", b"--log=log.txt", b"--report=report.txt", b"--layout=1", b"--switch", b"52", b"268435457",
              b"--shards=64", b"--room=4096", b"boards", b"--job=boards"],
}


# Damage.

def damaged_text(chance, text, kind, others):
    """The text with one damage."""
    at = chance.randrange(len(text) + 1)
    end = min(len(text), at + chance.choice((1, 1, 1, 2, 3, 8, 40)))
    how = chance.randrange(12)
    if how == 0:
        return text[:at] + text[end:]
    if how in (1, 2):
        return text[:at] + chance.choice(MARKS) + text[end:]
    if how == 3:
        return text[:at] + chance.choice(MARKS) + text[at:]
    if how == 4:
        return text[:at] + chance.choice(SNIPPETS[kind]) + text[at:]
    if how == 5:
        return text[:at] + text[at:end].swapcase() + text[end:]
    if how == 6:
        return text[:at] if chance.randrange(4) == 0 else text[:at] + bytes([chance.randrange(256)]) + text[end:]
    if how == 7 and len(text) > 1:
        # Two bytes are exchanged.
        one, two = sorted(chance.sample(range(len(text)), 2))
        return text[:one] + text[two:two + 1] + text[one + 1:two] + text[one:one + 1] + text[two + 1:]
    return damaged_lines(chance, text, others) if how < 10 else damaged_word(chance, text)


def damaged_lines(chance, text, others):
    """A line is dropped, repeated, moved, or taken from another file."""
    lines = text.splitlines(keepends=True) or [b""]
    one, two = chance.randrange(len(lines)), chance.randrange(len(lines))
    how = chance.randrange(5)
    if how == 0:
        del lines[one]
    elif how == 1:
        lines.insert(two, lines[one])
    elif how == 2:
        lines[one], lines[two] = lines[two], lines[one]
    else:
        other = chance.choice(others).splitlines(keepends=True) or [b""]
        lines[one:one + (how == 3)] = [chance.choice(other)]
    return b"".join(lines)


def damaged_word(chance, text):
    """A card, a hand, a number or a seat is replaced by another one from the text, or by a new one."""
    words = list(re.finditer(rb"[A-Za-z0-9.]+", text))
    if not words:
        return text
    word = chance.choice(words)
    new = chance.choice([chance.choice(words)[0], b"SHDC"[chance.randrange(4):][:1] + b"23456789TJQKA"[chance.randrange(13):][:1],
                         b"NESW"[chance.randrange(4):][:1], b"%d" % chance.randrange(30), word[0][::-1]])
    return text[:word.start()] + new + text[word.end():]


def damaged_log(chance, text):
    """A bit is flipped, a number changes by one, or a card is replaced. Most such logs are still read."""
    at = chance.choice(list(re.finditer(rb"[SHDC][2-9TJQKA]|[0-9]+", text)))
    found = at[0]
    if not found.isdigit():
        new = chance.choice(re.findall(rb"[SHDC][2-9TJQKA]", text))
    elif chance.randrange(2) and not found.strip(b"01"):
        bit = chance.randrange(len(found))
        new = found[:bit] + bytes([found[bit] ^ 1]) + found[bit + 1:]
    else:
        new = b"%d" % abs(int(found) + chance.choice((-1, 1)))
    return text[:at.start()] + new + text[at.end():]


def damaged_words(chance, words):
    words = list(words)
    at = chance.randrange(len(words) + 1)
    how = chance.randrange(6)
    if how == 0 and words:
        del words[min(at, len(words) - 1)]
    elif how in (1, 2):
        words.insert(at, chance.choice(SNIPPETS["words"]))
    elif how == 3 and words:
        chance.shuffle(words)
    elif words:
        at = min(at, len(words) - 1)
        words[at] = damaged_text(chance, words[at], "words", words) if how == 4 else chance.choice(SNIPPETS["words"])
    # The system ends words at a zero byte.
    return [word.replace(b"\x00", b"") for word in words]


# The runs.

def bases():
    """The cases to damage, by kind of damage, each with its words and files."""
    found = collections.defaultdict(list)
    for case in cases.names_of_cases():
        files = {name: cases.bytes_of(case, name.decode()) for name in NAMES.values()
                 if os.path.isfile(os.path.join(cases.CASES, case, name.decode()))}
        if cases.bytes_of(case, "fill") or max(map(len, files.values()), default=0) > MOST_BYTES:
            continue
        for kind, needed in NEEDED.items():
            if all(NAMES[it] in files for it in needed):
                found[kind] += [(cases.words_of(case), files)] * weight(kind, files)
    return found


def weight(kind, files):
    """How often damage starts from a case: mostly from sound deals. Its other files are damaged only if the deal is sound."""
    if kind == "words":
        return 1
    if not board_in(files):
        return int(kind == "deal")
    return 4 if kind == "deal" or kind == "log" and is_log(files[NAMES["log"]]) else 1


def is_log(log):
    """Whether the text is a log."""
    try:
        return bool(logs.lines_of(log))
    except logs.Fault:
        return False


def board_in(files):
    """The board of the deal file, or none if it is refused."""
    try:
        games = reading.games_of(files[NAMES["deal"]])
        return reading.board_of(games[0]) if games else None
    except reading.Refusal:
        return None


def own_report(files, chance):
    """A report of one plan with the right head for the files, or none if they are refused."""
    board = board_in(files)
    try:
        kept = board and reading.layouts_of(files[NAMES["layouts"]], board)
    except reading.Refusal:
        return None
    turn = board and reading.moment_after(board).turn()
    if turn is None or turn % 2:
        return None
    bit = chance.choice((b"0", b"1"))
    bits, word = bit * len(kept.numbers), reading.WORDS[kept.version()]
    return reading.head_text(board, kept, chance.randrange(1, 27)) + (
        b"front 1\nvector %s %s %d\nstop\ncard S2 %s 0\nend\n" % (bits, word, kept.weight(bits), word))


def is_small(files):
    """Whether few enough cards are left to play them all out quickly."""
    board = board_in(files)
    return board is None or reading.moment_after(board).tricks <= MOST_TRICKS


WORDS = {
    "check": [b"--job", b"check", b"--deal", b"deal.pbn", b"--layouts", b"layouts.lay", b"--report", b"report.txt"],
    "fusion": [b"--job", b"fusion", b"--deal", b"deal.pbn", b"--layouts", b"layouts.lay"],
    "list": [b"--job", b"list", b"--deal", b"deal.pbn"],
    "audit": [b"--job", b"audit", b"--deal", b"deal.pbn", b"--layouts", b"layouts.lay", b"--report", b"report.txt", b"--log", b"log.txt"],
    # Few nodes, so that a search ends soon.
    "match": [b"--job", b"match", b"--deal", b"deal.pbn", b"--layouts", b"layouts.lay", b"--moves", b"1", b"--nodes", b"9", b"--layout", b"2"],
    "prove": [b"--job", b"prove", b"--deal", b"deal.pbn", b"--layouts", b"layouts.lay", b"--moves", b"1", b"--nodes", b"9"],
    "boards": [b"--job", b"boards", b"--deal", b"deal.pbn", b"--layouts", b"layouts.lay", b"--moves", b"1", b"--nodes", b"9"],
}
# The jobs for a damaged deal or damaged layouts, if there are layouts.
ON_LAYOUTS = ("check",) * 4 + ("fusion",) * 2 + ("match", "prove", "boards")


def as_games(chance, files, found):
    """The deal and one or two others as the games of one file, with their layout files, one of which may be missing."""
    games = [files, *(it for _, it in chance.choices(found["layouts"], k=chance.randrange(3)) if is_small(it))]
    chance.shuffle(games)
    made = {NAMES["deal"]: b"\n\n".join(game[NAMES["deal"]] for game in games)}
    layouts = dict(zip(OF_GAMES, (game[NAMES["layouts"]] for game in games)))
    if chance.randrange(20) == 0:
        del layouts[chance.choice(list(layouts))]
    return {**made, **layouts}


def trial(number, seed, found):
    """The kind, the words and the files of a run."""
    chance = random.Random(f"{seed}:{number}")
    kind = chance.choice(KINDS)
    words, files = chance.choice(found[kind])
    files = dict(files)
    times = chance.choice((1, 1, 1, 2, 2, 3, 4))
    if kind == "words":
        for _ in range(times):
            words = damaged_words(chance, words)
        # The files are empty, so that words that are sound lead to no search.
        return kind, words, {name: b"" for name in files}
    others = [other[NAMES[kind]] for _, other in found[kind]]
    for _ in range(times):
        text = files[NAMES[kind]]
        is_fine = kind == "log" and re.search(rb"[0-9]", text) and chance.randrange(2)
        files[NAMES[kind]] = damaged_log(chance, text) if is_fine else damaged_text(chance, text, kind, others)
    if kind in ("report", "log"):
        is_audit = kind == "log" or NAMES["log"] in files and chance.randrange(2) == 0
        return kind, WORDS["audit" if is_audit else "check"], files
    has_layouts = NAMES["layouts"] in files
    job = chance.choice((*ON_LAYOUTS, *("list",) * 2 * (kind == "deal"))) if has_layouts else "list"
    if job in ("fusion", "match", "prove", "boards") and not is_small(files):
        job = "check"
    if job == "boards":
        return kind, WORDS[job], as_games(chance, files, found)
    if job == "check":
        report = own_report(files, chance)
        if report or NAMES["report"] not in files:
            files[NAMES["report"]] = report or b""
    return kind, WORDS[job], files


def run(program, words, folder, files, seconds):
    """Exit status, standard output and standard error; the status is none if the run doesn't end."""
    for name in (*NAMES.values(), *OF_GAMES):
        path = os.path.join(folder, name)
        if name in files:
            with open(path, "wb") as file:
                file.write(files[name])
        elif os.path.exists(path):
            os.remove(path)
    streams = [os.path.join(folder, it) for it in (b"out", b"err")]
    flags = os.O_WRONLY | os.O_CREAT | os.O_TRUNC
    process = os.posix_spawn(program, [program, *words], os.environ, file_actions=[
        (os.POSIX_SPAWN_OPEN, 0, "/dev/null", os.O_RDONLY, 0),
        *((os.POSIX_SPAWN_OPEN, at, path, flags, 0o600) for at, path in enumerate(streams, 1))])
    signal.setitimer(signal.ITIMER_REAL, seconds)
    try:
        status = os.waitstatus_to_exitcode(os.waitpid(process, 0)[1])
    except TimeoutError:
        os.kill(process, signal.SIGKILL)
        os.waitpid(process, 0)
        status = None
    signal.setitimer(signal.ITIMER_REAL, 0)
    return status, *(open(path, "rb").read() for path in streams)


def agrees(found, wanted, words, files):
    if wanted[0] is not None:
        return found == wanted
    return found[0] in SEARCHED and (found[0] != 0 or words != WORDS["boards"] or refused_in(found[1]) == refused_of(words, files))


def refused_in(text):
    """The line of each refused game in the output of `boards`, by the game's number."""
    return {int(number): line for number, line in re.findall(rb"(?m)^game ([0-9]+)\n(refused .*\n)", text)}


def refused_of(words, files):
    _, options = reading.ask_of([word.decode() for word in words])
    return reading.boards_refused(options, by_name(files))[0]


def by_name(files):
    return {name.decode(): content for name, content in files.items()}


def keep(folder, number, kind, words, files, told):
    kept = os.path.join(folder, str(number))
    os.makedirs(kept, exist_ok=True)
    for name, content in {**files, b"args": b"".join(word + b"\n" for word in words)}.items():
        with open(os.path.join(os.fsencode(kept), name), "wb") as file:
            file.write(content)
    return f"{number} ({kind}, kept in {kept}): {told}"


def on_alarm(*_):
    raise TimeoutError


def work(part):
    """The runs of one process: what differs, and how often each kind and status came."""
    given, start = part
    signal.signal(signal.SIGALRM, on_alarm)
    found, told, counts = bases(), [], collections.Counter()
    with tempfile.TemporaryDirectory() as folder:
        os.chdir(folder)
        for number in range(given.first + start, given.first + given.count, given.jobs):
            kind, words, files = trial(number, given.seed, found)
            wanted = reading.answer(words, by_name(files))
            got = run(given.program, words, os.fsencode(folder), files, given.seconds)
            counts[kind, got[0]] += 1
            if not agrees(got, wanted, words, files):
                told.append(keep(given.keep, number, kind, words, files, f"{got!r}, and not {wanted!r}"))
    return told, counts


def main():
    parser = argparse.ArgumentParser(description="Runs alphamu on damaged files and words.", allow_abbrev=False)
    parser.add_argument("program", nargs="?", default=cases.PROGRAM)
    parser.add_argument("--count", type=int, default=1000)
    parser.add_argument("--first", type=int, default=0)
    parser.add_argument("--seed", type=int, default=1)
    parser.add_argument("--jobs", type=int, default=len(os.sched_getaffinity(0)))
    parser.add_argument("--seconds", type=float, default=60)
    parser.add_argument("--keep", default=os.path.join(tempfile.gettempdir(), "damaged"))
    given = parser.parse_args()
    lacking = cases.lacks_program() if given.program == cases.PROGRAM else None
    if lacking:
        print(f"damaged: {lacking}")
        return 1
    given.program, given.keep = os.path.abspath(given.program), os.path.abspath(given.keep)
    with multiprocessing.Pool(given.jobs) as pool:
        parts = pool.map(work, [(given, start) for start in range(given.jobs)], chunksize=1)
    told = [line for lines, _ in parts for line in lines]
    counts = sum((it for _, it in parts), collections.Counter())
    for line in told:
        print(line)
    for kind in NEEDED:
        of_kind = {status: count for (of, status), count in counts.items() if of == kind}
        print(f"damaged: {kind}: {sum(of_kind.values())} runs, by status:",
              ", ".join(f"{status} {of_kind[status]}" for status in sorted(of_kind, key=str)))
    print(f"damaged: {sum(counts.values())} runs, {len(told)} differ")
    return 0 if counts and not told else 1


if __name__ == "__main__":
    sys.exit(main())
