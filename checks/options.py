#!/usr/bin/env python3
"""options.py [--jobs N] [--seconds N] [--only PATTERN] [--whole] [PROGRAM]

Runs a program on each case in cases/ whose job searches and which expects an output, with various options for the
search. If the run is done, it compares the output. Each case is run with each choice of options for one worker, and with
two of the choices for several workers, which rotate from case to case; with --whole it is run with all of them. If you
name no program it is that of cases.py. Each case that expects a report is also shown as a page that ./study
searches for, once without any choice and once with one, which rotates; the two pages must be the same. Prints the runs that
wrote something else, or that ended neither done nor spent. The exit status is 0 only if there is none, and if some run of
each choice was done by each program.
"""
import fnmatch
import os
import sys
from concurrent.futures import ThreadPoolExecutor

import jobs
from cases import STUDY, TOP, expected, is_ready, names_of_cases, parser_of, run, words_of

# A table of one entry is a table that is always full.
ONE_WORKER = [
    [b"--no-cuts"],
    [b"--no-table"],
    [b"--no-cuts", b"--no-table"],
    [b"--shards", b"1", b"--room", b"1"],
]
SEVERAL_WORKERS = [[b"--workers", workers] + choice for workers in (b"2", b"4", b"64")
                   for choice in [[], *ONE_WORKER, [b"--no-cuts", b"--shards", b"1", b"--room", b"1"]]]
CHOICES = ONE_WORKER + SEVERAL_WORKERS
SEARCHES = [job for job, (_, allowed) in jobs.JOBS.items() if "workers" in allowed]
DONE, SPENT = 0, (7, 17)


def job_of(words):
    """The job that the words name, or none."""
    return (jobs.split([word.decode(errors="replace") for word in words]) or {}).get("job")


def with_job(words, job):
    """The words with another job in place of the one that they name."""
    named = job_of(words).encode()
    return [job if it == named else b"--job=" + job if it == b"--job=" + named else it for it in words]


def is_fit(case, choice):
    """Whether the case is done, searches, and has none of these options yet."""
    words = words_of(case)
    given = {word.split(b"=")[0] for word in words if word.startswith(b"--")}
    return expected(case)[2] == DONE and job_of(words) in SEARCHES and not given & set(choice)


def choices_for(place, whole):
    """The choices for the case with this number."""
    if whole:
        return CHOICES
    turn = 2 * place % len(SEVERAL_WORKERS)
    return ONE_WORKER + SEVERAL_WORKERS[turn:turn + 2]


def judge(program, case, choice, seconds):
    """Whether the run is done, and what is wrong with it, if anything."""
    out, _, status = run(program, case, seconds, more=choice)
    named = f"{case} with {b' '.join(choice).decode()}"
    if status not in (DONE, *SPENT):
        return False, f"{named}: exit status {status}"
    if status == DONE and out != expected(case)[0]:
        return True, f"{named}: other bytes"
    return status == DONE, None


def judge_page(case, choice, seconds):
    """Whether both pages of the case are done, with the choice and without it, and what is wrong with them, if anything."""
    words = with_job(words_of(case), b"page")
    wanted, found = (run(STUDY, case, seconds, words=words, more=more) for more in ((), choice))
    named = f"{case} as a page with {b' '.join(choice).decode()}"
    if any(status not in (DONE, *SPENT) for _, _, status in (wanted, found)):
        return False, f"{named}: exit status {wanted[2]} or {found[2]}"
    is_done = wanted[2] == found[2] == DONE
    return is_done, f"{named}: other bytes" if is_done and wanted != found else None


def main():
    parser = parser_of("Runs alphamu's searches with each option.")
    parser.add_argument("--whole", action="store_true")
    given = parser.parse_args()
    if not is_ready(given.program, "options"):
        return 1
    program = os.path.abspath(given.program)
    names = fnmatch.filter(names_of_cases(), given.only)
    searched = [case for case in names if is_fit(case, [])]
    runs = [(case, choice) for place, case in enumerate(searched) for choice in choices_for(place, given.whole)
            if is_fit(case, choice)]
    shown = [(case, CHOICES[place % len(CHOICES)]) for place, case in enumerate(it for it in searched if job_of(words_of(it)) == "solve")
             if is_fit(case, CHOICES[place % len(CHOICES)])]
    with ThreadPoolExecutor(given.jobs) as pool:
        told = list(pool.map(lambda one: judge(program, *one, given.seconds), runs))
        pages = list(pool.map(lambda one: judge_page(*one, given.seconds), shown))
    wrong = [line for _, line in told + pages if line]
    done, of_pages = ({tuple(choice) for (_, choice), (is_done, _) in zip(*them) if is_done} for them in ((runs, told), (shown, pages)))
    missing = [b" ".join(choice).decode() for choice in CHOICES if tuple(choice) not in done & of_pages]
    for line in wrong + [f"no run or no page is done with {choice}" for choice in missing]:
        print(line)
    print(f"options: {len(runs)} runs and {len(shown)} pages, {sum(is_done for is_done, _ in told + pages)} done, {len(wrong)} wrong")
    return 0 if not wrong and not missing else 1


if __name__ == "__main__":
    sys.exit(main())
