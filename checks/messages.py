#!/usr/bin/env python3
"""messages.py

Runs the launchers ./alphamu and ./study at a terminal on the wrong words and odd files of cases/messages.txt: nothing may come on
standard output, and the lines at the terminal must name the word or line and what to do, as the list says. Where standard error is no
terminal, none of the launcher's own lines may come.

Then looks at --help and --version: each job has its page, whose example runs; package/help.txt has the jobs, options and limits of
checks/jobs.py, and for both programs the jobs and options of docs/REFUSALS.md. Prints what is wrong. The exit status is 0 only if nothing is."""
import os
import pathlib
import pty
import re
import shlex
import subprocess
import sys
import tempfile

sys.dont_write_bytecode = True
import cases
import jobs
import pages

TOP = pages.TOP
HELP = (TOP / "package/help.txt").read_text(encoding="utf-8")
EXAMPLE = {"deal": TOP / "examples/discard/deal.pbn", "layouts": TOP / "examples/discard/layouts.lay"}
# What the words of the list stand for.
SHORT = {"DEAL": ["--deal", "examples/discard/deal.pbn"], "LAYOUTS": ["--layouts", "examples/discard/layouts.lay"],
         "DEALFILE": ["examples/discard/deal.pbn"]}
LEAST = 60
faults = []


def expect(what, is_right):
    if not is_right:
        faults.append(what)


def at_terminal(words):
    """The status, what came on standard output, and what a terminal shows of standard error."""
    ours, theirs = pty.openpty()
    with tempfile.TemporaryFile() as out:
        process = subprocess.Popen(words, cwd=TOP, stdin=subprocess.DEVNULL, stdout=out, stderr=theirs)
        os.close(theirs)
        told = b""
        while part := read(ours):
            told += part
        os.close(ours)
        status = process.wait()
        out.seek(0)
        return status, out.read(), told.decode(errors="replace").replace("\r\n", "\n")


def read(terminal):
    """The next bytes; none once nobody has the terminal any more, which the system tells as an error."""
    try:
        return os.read(terminal, 65536)
    except OSError:
        return b""


def changed(data, edit):
    """The bytes of a file after an edit of the list."""
    if edit == "/nothing/":
        return b""
    if edit == "/utf-16/":
        return data.decode().encode("utf-16")
    old, new = (it.encode("latin-1").decode("unicode_escape").encode("latin-1") for it in edit[1:-1].split("/"))
    if data.count(old) == 0:
        raise ValueError(f"cases/messages.txt: not in the file: {edit}")
    return data.replace(old, new, 1)


def words_of(kind, what, room):
    """The launcher and its words for a line of the list."""
    if kind == "words":
        called, *rest = shlex.split(what)
        return [f"./{called}", *(word for it in rest for word in SHORT.get(it, [it]))]
    paths = {name: str(path) for name, path in EXAMPLE.items()}
    paths[kind] = str(pathlib.Path(room) / kind)
    pathlib.Path(paths[kind]).write_bytes(changed(EXAMPLE[kind].read_bytes(), what))
    return ["./alphamu", "--job", "card", "--moves", "2", "--deal", paths["deal"], "--layouts", paths["layouts"]]


def try_message(line, room):
    head, needed = line.rsplit(" -> ", 1)
    kind, _, what = head.partition(" ")
    words = words_of(kind, what, room)
    status, out, told = at_terminal(words)
    expect(f"{head}: status {status}, {len(out)} bytes on standard output", 0 < status < 64 and out == b"")
    for text in needed.split(" & "):
        expect(f"{head}: the terminal doesn't show {text}:\n{told}", text in told)
    piped = subprocess.run(words, cwd=TOP, stdin=subprocess.DEVNULL, stdout=subprocess.PIPE, stderr=subprocess.PIPE, check=False)
    mine = told.splitlines()[-1]
    expect(f"{head}: without a terminal: {piped}", piped.returncode == status and mine not in piped.stderr.decode(errors="replace"))


def parts():
    """The parts of the help, by their names."""
    return {head: text for head, text in re.findall(r"(?ms)^= (.*?)\n(.*?)(?=^= |\Z)", HELP)}


def try_table():
    """The help has the jobs of alphamu with their options, and the limits, as checks/jobs.py has them."""
    found = parts()
    own = {head.split()[1]: text for head, text in found.items() if head.startswith("alphamu ")}
    expect(f"help.txt has the jobs {sorted(own)}", set(own) == set(jobs.JOBS))
    for job, (needed, allowed) in jobs.JOBS.items():
        for mark, names in (("Required", needed), ("Allowed", allowed)):
            row = re.search(rf"(?ms)^{mark}:(.*?)(?=^Allowed|\n\n)", own.get(job, "") + "\n\n")
            expect(f"help.txt: {mark} of {job}", re.findall(r"--([a-z-]+)", row[1] if row else "") == list(names))
    for name, (least, most) in jobs.NUMBERS.items():
        expect(f"help.txt: the limits of --{name}", re.search(rf"(?m)^  --{name} \S+ +{least} to {most}: ", found["options"]))


def try_options():
    """The help has the options that docs/REFUSALS.md lists, and no other."""
    text = (TOP / "docs/REFUSALS.md").read_text(encoding="utf-8")
    listed = text[text.index("\n## The options and their limits"):text.index("\n## The order of refusals")]
    wanted = set(re.findall(r"`--([a-z-]+)", listed)) - {"job", "help", "version"}
    found = set(re.findall(r"--([a-z-]+)", parts()["options"]))
    expect(f"help.txt and REFUSALS differ in {sorted(wanted ^ found)}", wanted == found)
    rows = set(re.findall(r"`([a-z]+)`", " ".join(re.findall(r"(?m)^\| ((?:`[a-z]+`(?:, )?)+) \|", listed))))
    own = {head.split()[1] for head in parts() if " " in head}
    expect(f"help.txt and REFUSALS differ in the jobs {sorted(rows ^ own)}", rows == own)


def try_help():
    version = (TOP / "VERSION").read_text(encoding="utf-8").strip()
    for called, name in (("alphamu", "alphamu"), ("study", "alphamu_study")):
        told = [[f"./{called}", "--help"]]
        told += [[f"./{called}", *words] for head in parts() if head.startswith(f"{name} ")
                 for words in (["--help", head.split()[1]], ["--job", head.split()[1], "--help"])]
        for words in told:
            done = subprocess.run(words, cwd=TOP, stdin=subprocess.DEVNULL, capture_output=True, text=True, check=False)
            expect(f"{words}: {done}", (done.returncode, done.stderr) == (0, "") and f"./{called} --" in done.stdout)
            if words[1] == "--help" and len(words) == 3:
                try_examples(done.stdout)
        done = subprocess.run([f"./{called}", "--version"], cwd=TOP, capture_output=True, text=True, check=False)
        expect(f"{called} --version: {done}", (done.returncode, done.stdout) == (0, f"{name} {version}\n"))


def try_examples(text):
    commands = re.findall(r"(?m)^    (\S.*)$", text)
    expect(f"no example: {text}", any(it.startswith("./") for it in commands))
    for command in commands:
        done = subprocess.run(["bash", "-c", command], cwd=TOP, stdin=subprocess.DEVNULL, capture_output=True, text=True, check=False)
        expect(f"{command}: {done.stderr}", done.returncode == 0)


def main():
    lacking = cases.lacks_program()
    if lacking:
        sys.exit(f"messages: {lacking}")
    lines = [it for it in (TOP / "cases/messages.txt").read_text(encoding="utf-8").splitlines() if it and it[0] != "#"]
    expect(f"cases/messages.txt has {len(lines)} lines, at least {LEAST} are wanted", len(lines) >= LEAST)
    with tempfile.TemporaryDirectory() as room:
        for line in lines:
            try_message(line, room)
    try_table()
    try_options()
    try_help()
    for it in faults:
        print(it)
    print(f"messages: {len(lines)} wrong words and files, {len(faults)} faults")
    sys.exit(1 if faults else 0)


if __name__ == "__main__":
    main()
