#!/usr/bin/env python3
"""words.py [--jobs N] [--seconds N] [PROGRAM]

Compares the list of jobs and options in checks/jobs.py with the cases: it must refuse the words of exactly those cases
that expect status 2. Then compares it with the proved program, which ./build makes, on words that are changed in every
way that the list speaks of: an option left out, added, repeated, without a value, or with a value at or just beyond its
limits. The files that these words name aren't there, so the program ends at once. Prints what differs. The exit status
is 0 only if nothing does.
"""
import os
import subprocess
import sys
import tempfile
from concurrent.futures import ThreadPoolExecutor

sys.dont_write_bytecode = True
import cases
import jobs


def plain_value(name):
    """A value that each job takes, if it takes the option."""
    return f"no-such-{name}" if name in jobs.FILES else "0" if name == "number" else "1"


def plain_words(job, names):
    """The words for a job with these options."""
    words = ["--job", job]
    for name in names:
        words += [f"--{name}"] if name in jobs.FLAGS else [f"--{name}", plain_value(name)]
    return words


def odd_values(job, name):
    """Values at and beyond the limits of an option, and values of the wrong form."""
    if name in jobs.FILES:
        return ["", "-", "-x", "--deal", "x-"]
    least, most = jobs.limits_of(job, name)
    numbers = [least - 1, least, most, most + 1]
    return [*map(str, numbers), *(f"{sign}{least}" for sign in ("+", "-", " ", "00")), "", "1 ", "1.0", "x", "٢", "9" * 5000]


def words_about(job):
    """Words for a job, right and wrong, in every way that the list speaks of."""
    needed, allowed = jobs.JOBS[job]
    every = plain_words(job, [*needed, *allowed])
    plain = plain_words(job, needed)
    yield from (plain, every, every[2:] + every[:2], [], ["--job"], [job], plain[1:], [*plain, "--job", job])
    for more in ("", "-", "--", "-m", "x", "--help", "--=", "--x", "--x=1", "--moves1", "--de=x", "--no-tabl"):
        yield from ([more, *plain], [*plain, more])
    for name in needed:
        yield plain_words(job, [it for it in needed if it != name])
    for name in jobs.OPTIONS[1:]:
        others = plain_words(job, [it for it in needed if it != name])
        option, value = f"--{name}", plain_value(name)
        yield from ([*others, option], [option, *others], [*others, option, value], [*others, f"{option}={value}"], [*every, option, value])
        if name in (*needed, *allowed) and name not in jobs.FLAGS:
            for odd in odd_values(job, name):
                yield from ([*others, option, odd], [*others, f"{option}={odd}"])


def table_words():
    """Words about the size of the table."""
    plain = plain_words("solve", jobs.JOBS["solve"][0])
    for shards in (None, 1, 16, 17, 64):
        for room in (None, 1, 4096, 4097, 16_384, 16_385, 65_536):
            yield [*plain, *([] if shards is None else ["--shards", str(shards)]), *([] if room is None else ["--room", str(room)])]


def about_cases():
    """The cases from whose status the list differs."""
    for case in cases.names_of_cases():
        try:
            words = [word.decode() for word in cases.words_of(case)]
        except UnicodeDecodeError:
            continue
        if (jobs.options_in(words) is None) != (cases.expected(case)[2] == jobs.REFUSED):
            yield f"the case {case}: {words}"


def about_program(program, words, room, seconds):
    """The words, if the list differs from what the program makes of them."""
    ran = subprocess.run([program, *words], cwd=room, stdin=subprocess.DEVNULL, capture_output=True, timeout=seconds)
    if (jobs.options_in(words) is None) != (ran.returncode == jobs.REFUSED):
        return f"the program, which ends with {ran.returncode}: {words}"


def main():
    given = cases.parser_of("Compares the list of jobs and options with the cases and the program.").parse_args()
    if not cases.is_ready(given.program, "words"):
        return 1
    program = os.path.abspath(given.program)
    tried = [*table_words(), *(words for job in jobs.JOBS for words in words_about(job))]
    with tempfile.TemporaryDirectory() as room, ThreadPoolExecutor(given.jobs) as pool:
        told = list(pool.map(lambda words: about_program(program, words, room, given.seconds), tried))
    told = [*about_cases(), *filter(None, told)]
    for line in told:
        print(f"words: the list differs from {line}")
    print(f"words: {len(tried)} lists of words and every case, {len(told)} differ")
    return 1 if told else 0


if __name__ == "__main__":
    sys.exit(main())
