#!/usr/bin/env python3
"""proofs.py [--jobs N] [--seconds N] [--only PATTERN] [PROGRAM]

Asks for the log of each case in cases/ that expects a report, with at most 10,000 nodes, and audits the expected report with
it: the log must prove it complete, with as many lines as the log has. Then the log is damaged: a line is dropped, two
neighbouring lines are exchanged, a 1 in the last line becomes a 0, or a line cites one line less. Each damaged log is audited
too, and must get the line and the status that a second reading of the rules gives (checks/logs.py). If you name no program it
is that of cases.py. The exit status is 0 only if nothing differs, and if some damaged logs were refused and some
still prove everything.
"""
import fnmatch
import os
import random
import sys
from concurrent.futures import ProcessPoolExecutor

sys.dont_write_bytecode = True
import reading
from cases import bytes_of, expected, is_ready, names_of_cases, parser_of, run, words_of

NODES = b"10000"
REPORT, LOG = b"report.of.the.case", b"log.of.the.case"
# How many damaged logs of each kind are made from a log with at most MOST_LINES lines; longer logs are only audited.
TIMES = 2
MOST_LINES = 2000


def asked(case):
    """The options of a case that expects a report, or none."""
    text, _, status = expected(case)
    found = reading.ask_of([word.decode(errors="replace") for word in words_of(case)])
    return found[1] if found and found[0] == "solve" and status == 0 and text else None


def words_for(job, options, *names):
    words = [b"--job", job]
    for name in names:
        words += [b"--" + name.encode(), options[name].encode()]
    return words


def turned(chance, line):
    """The line with one of the ones in its vectors changed to 0, or none."""
    words, vectors = line.rsplit(b" ", 1)
    ones = [at for at, byte in enumerate(vectors) if byte == ord("1")]
    if not ones:
        return None
    at = chance.choice(ones)
    return words + b" " + vectors[:at] + b"0" + vectors[at + 1:]


def citing_less(chance, lines):
    """The place of a line that cites two or more lines, and the line without one of them; or none."""
    places = [at for at, line in enumerate(lines) if b"," in line.split(b" ")[3]]
    if not places:
        return None
    at = chance.choice(places)
    words = lines[at].split(b" ")
    cited = words[3].split(b",")
    del cited[chance.randrange(len(cited))]
    return at, b" ".join([*words[:3], b",".join(cited), words[4]])


def damaged(chance, log):
    """Damaged logs, each with what was done to it."""
    first, *lines, end = log.split(b"\n")[:-1]
    made = []
    for _ in range(TIMES):
        at = chance.randrange(len(lines))
        made.append((f"without line {at + 1}", lines[:at] + lines[at + 1:]))
        if len(lines) > 1:
            at = chance.randrange(len(lines) - 1)
            made.append((f"lines {at + 1} and {at + 2} exchanged", lines[:at] + [lines[at + 1], lines[at]] + lines[at + 2:]))
        last = turned(chance, lines[-1])
        if last:
            made.append(("a bit of the last line turned", lines[:-1] + [last]))
        less = citing_less(chance, lines)
        if less:
            made.append((f"line {less[0] + 1} cites one line less", lines[:less[0]] + [less[1]] + lines[less[0] + 1:]))
    return [(what, b"".join(line + b"\n" for line in [first, *it, end])) for what, it in made]


class Trial:
    """A case with its report, audited by one log after another."""

    def __init__(self, program, case, options, seconds):
        self.program, self.case, self.options, self.seconds = program, case, options, seconds
        self.words = words_for(b"audit", options, "deal", "layouts") + [b"--report", REPORT, b"--log", LOG]
        self.report = expected(case)[0]

    def log(self):
        """The log that the program writes, or none if it has too many lines."""
        words = words_for(b"prove", self.options, "deal", "layouts", "moves") + [b"--nodes", NODES]
        text, line, status = run(self.program, self.case, self.seconds, words=words)
        if status not in (0, 7):
            raise ValueError(f"{self.case}: no log: exit status {status}, {line!r}")
        return None if status else text

    def audit(self, log):
        found = run(self.program, self.case, self.seconds, words=self.words, files={REPORT: self.report, LOG: log})
        return found[2], found[0], found[1]

    def wanted(self, log):
        files = {name: bytes_of(self.case, name) for name in (self.options["deal"], self.options["layouts"])}
        return reading.answer(self.words, {**files, REPORT.decode(): self.report, LOG.decode(): log})


def judge(program, case, options, seconds):
    """How many lines the log has, how each damaged log ended, and what is wrong."""
    trial = Trial(program, case, options, seconds)
    try:
        log = trial.log()
    except ValueError as error:
        return 0, [], [str(error)]
    if log is None:
        return 0, [], []
    count, ended, told = log.count(b"\n") - 2, [], []
    complete = 0, b"alphamu audit 1\nlines %d\ncomplete\n" % count, b""
    tried = [("as it is", log, complete)]
    if count <= MOST_LINES:
        tried += [(what, text, trial.wanted(text)) for what, text in [("read again", log), *damaged(random.Random(case), log)]]
    for what, text, wanted in tried:
        found = trial.audit(text)
        ended += [found[0]] if text != log else []
        told += [f"{case}, {what}: {found!r}, and not {wanted!r}"] if found != wanted else []
    return count, ended, told


def main():
    parser = parser_of("Proves the reports of alphamu's cases complete.")
    given = parser.parse_args()
    if not is_ready(given.program, "proofs"):
        return 1
    program = os.path.abspath(given.program)
    tried = [(case, asked(case)) for case in fnmatch.filter(names_of_cases(), given.only)]
    with ProcessPoolExecutor(given.jobs) as pool:
        made = [pool.submit(judge, program, case, options, given.seconds) for case, options in tried if options]
        told = [it.result() for it in made]
    wrong = [line for _, _, lines in told for line in lines]
    ended = [status for _, statuses, _ in told for status in statuses]
    for line in wrong:
        print(line)
    counts = [count for count, _, _ in told if count]
    differ = f"{len(wrong)} differ" if wrong else "no difference"
    print(f"proofs: {len(counts)} logs, {sum(counts)} lines, {len(ended)} damaged logs: {differ}")
    return 0 if not wrong and 0 < ended.count(0) < len(ended) else 1


if __name__ == "__main__":
    sys.exit(main())
