#!/usr/bin/env python3
"""edits.py [CRATE ..]
edits.py --apply

Tries the edits of more-edits/CRATE/ with the prover, which must refuse each as it must those of crates/CRATE/must-fail/.
The gate tries those of must-fail/ alone, since each takes the prover some seconds; a release asks for these too. They are tried in a
copy of the working tree, in place of the gate's; the copy is removed in the end. If you name crates, only theirs are tried.

It begins with what `rt check` kept, here or elsewhere on this machine, so run it in a tree that was checked: otherwise it first proves
each crate that it needs. All edits of a checked tree take about an hour of a processor, and the copy takes some GB under TMPDIR.

--apply runs no prover and takes a second. It finds what would keep an edit from being tried, in both places: an `old:` text that doesn't
stand once in its file, an edit that changes nothing, a folder of more-edits/ that is no crate's, one name in both places. It also fails
if must-fail/ has more than MOST edits in all, if the table of docs/TESTED.md lacks one of these, or if it has one that isn't there.

Each finding, or each edit that isn't refused, has a line. The exit status is 0 only if there is none, and 2 for a crate without edits.
"""
import argparse
import os
import pathlib
import re
import shutil
import subprocess
import sys
import tempfile

TOP = pathlib.Path(__file__).resolve().parent.parent
CRATES, MORE = TOP / "crates", TOP / "more-edits"
TESTED = TOP / "docs" / "TESTED.md"
# How many edits the gate tries at most: each takes it 10 to 80 seconds of a processor.
MOST = 90
REFUSED = ": refused, as it must be"


class Edit:
    """An edit: its file, its crate, and triples of a path, an old text and the new one."""

    def __init__(self, path, crate):
        self.path, self.crate, self.pairs = path, crate, []
        inside, old = "", None
        for line in path.read_text(encoding="utf-8").split("\n"):
            if line.startswith("file: "):
                inside = line.removeprefix("file: ").strip()
            elif line.startswith("old: "):
                old = line.removeprefix("old: ")
            elif line.startswith("new:") and old is not None:
                self.pairs.append((inside, old, line.removeprefix("new:").removeprefix(" ")))
                old = None

    def __str__(self):
        return self.path.relative_to(TOP).as_posix()

    def fault(self):
        """What keeps it from being tried. None if nothing does."""
        texts = {}
        for inside, old, new in self.pairs:
            file = CRATES / self.crate / inside
            if not inside.startswith("src/") or not file.is_file():
                return f"there is no file {inside} in src/ of {self.crate}"
            text = texts.get(inside) or file.read_text(encoding="utf-8")
            if text.count(old) != 1:
                return f"{inside} has {text.count(old)} times, and not once: {old}"
            if old == new:
                return "it changes nothing"
            texts[inside] = text.replace(old, new)
        return None if self.pairs else "it has no pair of 'old:' and 'new:'"


def in_gate():
    return [Edit(path, path.parts[-3]) for path in sorted(CRATES.glob("*/must-fail/*.edit"))]


def besides():
    return [Edit(path, path.parts[-2]) for path in sorted(MORE.glob("*/*.edit"))]


def told():
    """The crates and names of the edits in the table of TESTED, whose second cells say "`CRATE`, ..: `EDIT`, ..; .."."""
    cells = [row.split("|")[2] for row in TESTED.read_text(encoding="utf-8").split("\n") if row.count("|") == 4]
    pairs = [part.partition(":") for cell in cells for part in cell.split(";")]
    in_marks = re.compile("`([^`]+)`").findall
    return {(crate, name) for crates, _, names in pairs for crate in in_marks(crates) for name in in_marks(names)}


def apply():
    """One line for each finding about the edits as files."""
    gate, more = in_gate(), besides()
    findings = [f"{edit}: {fault}" for edit in gate + more if (fault := edit.fault())]
    findings += [f"{path.relative_to(TOP)}: no edit of a crate"
                 for path in sorted(MORE.rglob("*"))
                 if path.is_file() and (path.suffix != ".edit" or len(path.relative_to(MORE).parts) != 2)]
    theirs, others = ({(edit.crate, edit.path.stem) for edit in edits} for edits in (gate, more))
    findings += [f"{crate}: {name} is in both places" for crate, name in sorted(theirs & others)]
    findings += [f"docs/TESTED.md lacks {name} of {crate}" for crate, name in sorted(theirs - told())]
    findings += [f"docs/TESTED.md has {name} of {crate}, which isn't there" for crate, name in sorted(told() - theirs - others)]
    if len(gate) > MOST:
        findings.append(f"the gate has {len(gate)} edits, and {MOST} at most: move some to more-edits/")
    print("\n".join([*findings, f"edits: {len(gate)} in the gate, {len(more)} besides, {len(findings)} findings"]))
    return 1 if findings else 0


def copy_to(room, edits):
    """A copy of the crates with these edits in place of the gate's."""
    shutil.copytree(CRATES, room / "crates", ignore=shutil.ignore_patterns("out", "must-fail"))
    for name in ("crates.txt", "HANDLES"):
        shutil.copy(TOP / name, room / name)
    for edit in edits:
        folder = room / "crates" / edit.crate / "must-fail"
        folder.mkdir(exist_ok=True)
        shutil.copy(edit.path, folder)


def tried(edits):
    """Tries them, and passes on what the toolchain says. How many were refused, and its status."""
    refused = 0
    with tempfile.TemporaryDirectory(prefix="edits-") as room:
        copy_to(pathlib.Path(room), edits)
        words = ["rt", "must-fail", *sorted({edit.crate for edit in edits})]
        with subprocess.Popen(words, cwd=room, stdin=subprocess.DEVNULL, stdout=subprocess.PIPE, stderr=subprocess.STDOUT,
                              text=True, errors="replace") as prover:
            for line in prover.stdout:
                refused += REFUSED in line
                print(line, end="", flush=True)
    return refused, prover.returncode


def main():
    parser = argparse.ArgumentParser(description="Tries the edits of more-edits/.", allow_abbrev=False)
    parser.add_argument("--apply", action="store_true")
    parser.add_argument("crates", nargs="*", metavar="CRATE")
    given = parser.parse_args()
    if given.apply:
        return apply()
    edits = [edit for edit in besides() if not given.crates or edit.crate in given.crates]
    for crate in set(given.crates) - {edit.crate for edit in edits}:
        print(f"edits: more-edits/ has none of {crate}", file=sys.stderr)
        return 2
    refused, status = tried(edits)
    print(f"edits: {refused} of {len(edits)} refused")
    return 0 if status == 0 and refused == len(edits) else 1


if __name__ == "__main__":
    sys.exit(main())
