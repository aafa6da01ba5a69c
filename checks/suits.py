#!/usr/bin/env python3
"""Asks the program about each suit combination on the page examples/suits/README.md and compares its answers with the page.

The values on the page are those of the textbooks; they aren't taken from the program. `fusion` must give the column "A simulation says"
and `card` with all moves the column "True", in percent of the weight of all layouts, to two places. A row of README.md must be one of
that page. It fails if a value differs, if a row asks for another number of tricks than the ending that examples/suits/make.py writes, or if
the page has fewer than LEAST rows.

It takes about fifteen seconds of the processor."""
import os
import pathlib
import re
import subprocess
import sys
import tempfile
from concurrent.futures import ThreadPoolExecutor

sys.dont_write_bytecode = True
import cases

TOP = pathlib.Path(__file__).resolve().parent.parent
MAKE = TOP / "examples" / "suits" / "make.py"
PAGE, FRONT_PAGE = MAKE.with_name("README.md"), TOP / "README.md"
HAND = "([AKQJ0-9x]+)"
ROW = re.compile(rf"^\| {HAND} \| {HAND} \| (\d) \| (\d) \| (all|no 5-0) \| (\d+\.\d\d) % \| (\d+\.\d\d) % \|", re.M)
FRONT_ROW = re.compile(rf"^\| {HAND} \| {HAND} \| (\d) \| (\d+\.\d\d) % \| (\d+\.\d\d) % \|", re.M)
WORST = {"all": 13, "no 5-0": 4}
# How many rows the page has at least, so that none is lost unseen.
LEAST = 16


def answer(job, name, *more):
    """What the program prints about an ending."""
    words = [cases.PROGRAM, "--job", job, "--deal", f"{name}.pbn", "--layouts", f"{name}.lay", *more]
    return subprocess.run(words, capture_output=True, text=True, check=True).stdout


def percent(weight, total):
    return f"{100 * weight / total:.2f}"


def faults(row, name):
    """One line for each thing in a row that isn't as the program has it."""
    dummy, south, tricks, entries, breaks, sampled, true = row
    subprocess.run([MAKE, dummy, south, name, "--entries", entries, "--worst", str(WORST[breaks])], check=True)
    need = int(re.search(r'EndNeed "(\d+)"', pathlib.Path(f"{name}.pbn").read_text())[1])
    weight, total = map(int, re.search(r"weight (\d+) of (\d+)", answer("card", name, "--moves", "26")).groups())
    most = max(map(int, re.findall(r"^card .* weight (\d+)$", answer("fusion", name), re.M)))
    pairs = [("tricks", tricks, str(need - 2 * int(entries))), ("sampling", sampled, percent(most, total)),
             ("true", true, percent(weight, total))]
    return [f"{dummy} opposite {south}: {what} {said}, but the program has {found}" for what, said, found in pairs if said != found]


def main():
    lacking = cases.lacks_program()
    if lacking:
        sys.exit(f"suits: {lacking}")
    rows = ROW.findall(PAGE.read_text())
    known = {(dummy, south, tricks, sampled, true) for dummy, south, tricks, _, _, sampled, true in rows}
    wrong = [f"README.md has a row that isn't on the page: {row}" for row in FRONT_ROW.findall(FRONT_PAGE.read_text()) if row not in known]
    with tempfile.TemporaryDirectory() as room, ThreadPoolExecutor(os.cpu_count()) as workers:
        names = [f"{room}/{number}" for number in range(len(rows))]
        wrong += [line for found in workers.map(faults, rows, names) for line in found]
    if len(rows) < LEAST:
        wrong.append(f"the page has {len(rows)} rows, and {LEAST} are expected")
    print("\n".join([*wrong, f"suits: {len(rows)} combinations, {len(wrong)} faults"]))
    sys.exit(1 if wrong else 0)


if __name__ == "__main__":
    main()
