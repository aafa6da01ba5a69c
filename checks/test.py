#!/usr/bin/env python3
"""test.py

Runs the checks that need no proof, as `./build test` does: the cases, the pages, and the checks that compare the programs with
a second reading of the rules. They run over the proved programs if these are there and current; otherwise over the same
source, compiled unproved, which is done first if need be. An unproved program is several times as slow, so the checks of
LONG are left out then. Prints which programs they are, a line for each check with its time, and all that a check that failed
has printed. The last line is `N passed, M failed`, and the status is 0 only if none failed.
"""
import os
import resource
import subprocess
import sys
import time

sys.dont_write_bytecode = True
import cases
import unproved

CHECKS = """
    edits.py --apply
    docs.py
    definitions.py
    cases.py
    fronts.py
    words.py
    messages.py
    damaged.py --count 3000
    edge.py
    odd_places.py
    options.py
    matches.py
    told.py
    lines.py
    page.py
    page_words.py
    look.py
    desk.py
    desk_safety.py
    cards.py
    review.py
    draw.py
    evening.py
    proofs.py
    pages.py
    suits.py
""".strip().splitlines()

# What takes too long over a program that checks itself as it runs.
LONG = "options.py matches.py review.py evening.py".split()


def say(line):
    print(f"test: {line}", flush=True)


def processor_seconds():
    used = resource.getrusage(resource.RUSAGE_CHILDREN)
    return used.ru_utime + used.ru_stime


def is_passed(check):
    """Runs a check and says in a line how it ended, after all that it printed if it failed."""
    begun, used = time.monotonic(), processor_seconds()
    done = subprocess.run([os.path.join(cases.TOP, "checks", it) if it.endswith(".py") else it for it in check.split()],
                          stdin=subprocess.DEVNULL, stdout=subprocess.PIPE, stderr=subprocess.STDOUT, text=True, errors="replace")
    lines = done.stdout.splitlines() or ["no line"]
    if done.returncode:
        print("\n".join(lines))
    how, took, used = "FAILED" if done.returncode else "passed", time.monotonic() - begun, processor_seconds() - used
    say(f"{how} in {took:.0f} s, {used:.0f} s of a processor: {lines[-1]}")
    return not done.returncode


def main():
    unproven = [it for it in unproved.CALLED if not cases.is_proved(it)]
    try:
        unproved.make_all(cases.TOP, unproven, say)
    except unproved.NoAnswer as why:
        say(why)
        print("0 passed, 1 failed")
        return unproved.NO_ANSWER
    for it in unproved.CALLED:
        say(f"{it} is {'compiled unproved: ./build makes the proved one' if it in unproven else 'the proved one'}")
    left_out = LONG if unproven else []
    if left_out:
        say(f"left out, since they take too long over an unproved program: {' '.join(left_out)}")
    passed = [is_passed(it.strip()) for it in CHECKS if it.strip() not in left_out]
    print(f"{passed.count(True)} passed, {passed.count(False)} failed")
    return 0 if all(passed) else 1


if __name__ == "__main__":
    sys.exit(main())
