"""The desk in a package: its launcher, its files and its man page, whose text is USING's section and what `--help` says."""
import os
import re
import subprocess
import sys

import man

LAUNCHER = """#!/bin/sh
# A board on the screen, with what alphamu_study says of each card: opens the desk in the browser. `man alphamu_desk` has more.
root=$(dirname -- "$(readlink -f -- "$0")")/..
if ! command -v python3 >/dev/null; then
    printf "alphamu_desk: python3 isn't on the path\\n" >&2
    exit 70
fi
PYTHONPATH=$root/lib/alphamu PYTHONDONTWRITEBYTECODE=1 exec python3 -m alphamu_desk "$@"
"""
TITLE = "The desk: a board on the screen"


def options(top):
    """What `--help` says of each option, as rows of the man page."""
    words, env = [sys.executable, "-m", "alphamu_desk", "--help"], {**os.environ, "COLUMNS": "400", "PYTHONDONTWRITEBYTECODE": "1"}
    told = subprocess.run(words, cwd=top, env=env, stdout=subprocess.PIPE, text=True, check=True).stdout
    for name, meaning in re.findall(r"^  (\S.*?)  +(\S.*)$", told, re.M):
        yield from (".TP", f"\\fB{man.escaped(name)}\\fR", man.escaped(meaning))


def page(top, version):
    """The man page of alphamu_desk as text."""
    using = man.as_installed((top / "docs/USING.md").read_text(encoding="utf-8"))
    out = [f'.TH ALPHAMU_DESK 1 "" "alphamu {version}" "alphamu"',
           ".SH NAME", "alphamu_desk \\- shows a board of bridge in the browser, with what each card of declarer's side makes",
           ".SH SYNOPSIS", "\\fBalphamu_desk\\fR [\\fIOPTIONS\\fR] [\\fIFILE\\fR]", ".SH OPTIONS", *options(top),
           ".SH DESCRIPTION", *man.converted(man.section(using, TITLE)), *man.see_also("alphamu_study")]
    return "\n".join(out) + "\n"


def contents(top):
    """What is installed: for each name under the prefix its bytes and its mode."""
    found = {"bin/alphamu_desk": (LAUNCHER.encode(), 0o755)}
    for path in sorted([*top.glob("alphamu_desk/*.py"), *top.glob("alphamu_desk/page/*")]):
        found[f"lib/alphamu/{path.relative_to(top)}"] = (path.read_bytes(), 0o644)
    return found
