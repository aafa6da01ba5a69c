#!/usr/bin/env python3
"""Runs every command that the pages for users show, and compares what it prints with what the page shows.

A command is a line of README.md, of USING, REFUSALS, PROGRAMS or FORMS in docs/, or of a lesson under examples/ that begins with four blanks and
`./alphamu`, `./study`, `examples/`, `grep`, `awk`, `timeout`, `cat` or `/usr/games/dealer`. The shell runs it at the top of the repository.
If its program isn't installed, it is counted as left out. If a block in fences follows, before the next command and before the
next heading, the command must print the lines of the block, standard output and then standard error; a last line `..` means any
further lines. If no block follows, the command must end with status 0. The commands of one page run in order, since some write
files in /tmp for later ones. README.md and USING may show no other command, except `./build`, which runs this check, and
`./desk`, which only Ctrl-C ends.

If the proved programs aren't there, the launchers answer by the unproved ones, whose line on standard error is left out."""
import pathlib
import re
import shutil
import subprocess
import sys

sys.dont_write_bytecode = True
import cases
import unproved

TOP = pathlib.Path(__file__).resolve().parent.parent
PAGES = [*(TOP / it for it in ("README.md", "docs/USING.md", "docs/REFUSALS.md", "docs/PROGRAMS.md", "docs/FORMS.md")), *sorted(TOP.glob("examples/**/README.md"))]
COMMAND = re.compile(r"^    ((?:\./alphamu|\./study|examples/|(?:grep|awk|timeout|cat|/usr/games/dealer) )\S*.*)$")

NOTICES = {f"{called}: {unproved.NOTICE.format(top='.')}" for called in unproved.CALLED.values()}


def commands(text):
    """Each command of a page with its line and the lines that it must print, or none."""
    found, fence, shown = [], None, False
    for number, line in enumerate(text.splitlines(), 1):
        if fence is not None:
            if line.startswith("```"):
                if found and not shown:
                    found[-1][2], shown = fence, True
                fence = None
            else:
                fence.append(line)
        elif line.startswith("```"):
            fence = []
        elif line.startswith("#"):
            shown = True
        elif match := COMMAND.match(line):
            found.append([number, match[1], None])
            shown = False
    return found


def unknown(text):
    """The lines of a page, outside of its fenced blocks, that begin with four blanks and are no command that is run here."""
    prose = re.sub(r"^```.*?^```", lambda it: "\n" * it[0].count("\n"), text, flags=re.DOTALL | re.MULTILINE)
    return [(number, line.strip()) for number, line in enumerate(prose.splitlines(), 1)
            if line.startswith("    ") and not COMMAND.match(line) and not line.startswith(("    ./build", "    ./desk"))]


def is_there(program):
    return (TOP / program).exists() if "/" in program else shutil.which(program) is not None


def agrees(expected, printed):
    if expected is None:
        return True
    if expected and expected[-1] == "..":
        return printed[:len(expected) - 1] == expected[:-1]
    return printed == expected


def main():
    lacking = cases.lacks_program()
    if lacking:
        sys.exit(f"pages: {lacking}")
    run = differ = left_out = 0
    for page in PAGES:
        for number, line in unknown(page.read_text()) if page in PAGES[:2] else ():
            differ += 1
            print(f"{page.relative_to(TOP)}:{number}: not run: {line}")
        for number, command, expected in commands(page.read_text()):
            if not is_there(command.split()[0]):
                left_out += 1
                continue
            done = subprocess.run(["bash", "-c", command], cwd=TOP, capture_output=True, text=True, stdin=subprocess.DEVNULL)
            run += 1
            if (done.returncode and expected is None) or not agrees(expected, [it for it in (done.stdout + done.stderr).splitlines() if it not in NOTICES]):
                differ += 1
                print(f"{page.relative_to(TOP)}:{number}: {command}\n{done.stdout}{done.stderr}")
    print(f"pages: {run} commands run, {differ} differ, {left_out} left out")
    sys.exit(1 if differ or not run else 0)


if __name__ == "__main__":
    main()
