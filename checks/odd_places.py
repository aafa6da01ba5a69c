#!/usr/bin/env python3
"""odd_places.py [--jobs N] [--seconds N] [--only PATTERN]

Calls ./alphamu, ./study and ./build in odd places: without the commands that they could use, without a second process, met by a
signal in the first moments, by other shells and names, over a program that is old or cut off, and with words that can't
be right. Each call is made in a copy of the launcher, with a proved program, in whose place another may stand, or without it. The
toolchain is a script of a line or two that runs the program, waits or fails, so nothing is compiled.

Prints what was wrong. The exit status is 0 only if nothing was. It takes less than a minute.
"""
import argparse
import fnmatch
import os
import pty
import resource
import select
import shutil
import signal
import subprocess
import sys
import tempfile
import time
from concurrent.futures import ThreadPoolExecutor

sys.dont_write_bytecode = True
import cases
import jobs
import unproved

# The jobs in the order of the help.
JOBS = "card, solve, boards, fusion, list, match, check, prove, audit, made"
LAUNCHER = ("alphamu", "study", "build", "checks/launch", "checks/program_state", "checks/unproved.py", "checks/jobs.py",
            "package/words.sh", "package/help.txt", "package/more.awk")
SOURCES = ("crates.txt", "HANDLES", "crates/alphamu/src/main.rt", "crates/alphamu/src/deep/er/most.rt", "crates/alphamu_study/src/main.rt")
CASE = "queen-two-ways"
# Users without processes, one for each trial.
FIRST_USER = 61000
# What the toolchain does in a trial.
ANSWERS = f"""while [ "$1" != -- ]; do shift; done; shift
case $PWD in *_study) program='{cases.STUDY}' ;; *) program='{cases.PROGRAM}' ;; esac
cp "$program" "$TMPDIR/program"; exec "$TMPDIR/program" "$@" """
FAILS = """echo "checked: no-answer: too hot" >&2; echo "run=none proved=no" >&2; exit 2"""
# (a TERM that comes before the child runs `sleep` would be lost)
WAITS = """trap 'kill -9 $!; exit 143' TERM; sleep 60 & echo $! >>"$CHILDREN"; wait"""
CHANGES = f"""echo >>src/main.rt; {ANSWERS}"""
BUILDS = f"""cp '{cases.PROGRAM}' "out/${{PWD##*/}}" """
ANSWER = cases.expected(CASE)
OF_STUDY = "study/cards-queen-two-ways"


class Place:
    """A copy of the launcher over a small source, with a folder for each thing that a trial needs."""

    def __init__(self, room, user, seconds):
        self.room, self.user, self.seconds = tempfile.mkdtemp(dir=room), user, seconds
        self.top = self.room + "/top of it"
        self.work, self.bin, self.kept = f"{self.room}/work", f"{self.room}/bin", f"{self.top}/out/unproved"
        self.program = self.top + "/crates/alphamu/out/alphamu"
        for file in (*LAUNCHER, *SOURCES):
            os.makedirs(os.path.dirname(f"{self.top}/{file}"), exist_ok=True)
            if file in LAUNCHER:
                shutil.copy(os.path.join(cases.TOP, file), f"{self.top}/{file}")
            else:
                open(f"{self.top}/{file}", "wb").close()
        for folder in (self.work, self.bin, self.kept, os.path.dirname(self.program)):
            os.makedirs(folder)
        os.chmod(self.room, 0o755)
        os.chmod(self.kept, 0o777)
        cases.lay_out(CASE, self.work)

    def add_program(self, size=None, age=-1):
        """The proved program, or its first bytes, older than the source by this many seconds."""
        shutil.copy(cases.PROGRAM, self.program)
        if size is not None:
            os.truncate(self.program, size)
        at = time.time() - age
        os.utime(self.program, (at, at))

    def add_toolchain(self, does):
        with open(self.bin + "/rt", "w", encoding="utf-8") as file:
            file.write(f"#!/bin/sh\necho >>'{self.room}/calls'\n{does}\n")
        os.chmod(self.bin + "/rt", 0o755)

    def calls(self):
        """How often the toolchain was called."""
        return os.path.getsize(self.room + "/calls") if os.path.exists(self.room + "/calls") else 0

    def line(self, text, called="alphamu"):
        return f"{called}: {text.format(top=self.top)}\n".encode()

    def start(self, words, command=None, path=None, cwd=None, before=None, err=subprocess.PIPE):
        def prepare():
            resource.setrlimit(resource.RLIMIT_CORE, (0, 0))
            if before:
                before(self)
        env = {"PATH": f"{self.bin}:{os.environ['PATH']}" if path is None else path, "CHILDREN": self.room + "/children", "HOME": "/"}
        return subprocess.Popen([*(command or [self.top + "/alphamu"]), *words], cwd=cwd or self.work, env=env, stderr=err,
                                stdin=subprocess.DEVNULL, stdout=subprocess.PIPE, start_new_session=True, preexec_fn=prepare)

    def ended(self, process):
        """What came of the call; the status is none if it didn't end."""
        with process:
            try:
                out, err = process.communicate(timeout=self.seconds)
            except subprocess.TimeoutExpired:
                os.killpg(process.pid, signal.SIGKILL)
                return b"", b"", None
            return out, err, process.returncode

    def run(self, words, **more):
        return self.ended(self.start(words, **more))

    def children(self):
        """What is left of what the toolchain started."""
        if not os.path.exists(self.room + "/children"):
            return []
        with open(self.room + "/children", encoding="ascii") as file:
            return [it for it in file.read().split() if os.path.exists(f"/proc/{it}")]

    def left(self):
        """The same, and the folders of compiles."""
        return [*self.children(), *(it for it in os.listdir(self.kept) if it.startswith("tmp"))]


def words():
    return cases.words_of(CASE)


def differs(found, *wanted):
    """What is wrong with what came of a call, if it is none of these."""
    return None if found in wanted else "no end" if found[2] is None else f"{found!r}, and not " + " or ".join(map(repr, wanted))


def unanswered(place, text):
    return b"", place.line(text), unproved.NO_ANSWER


def by_source(place, out, err, status, is_first=True, called="alphamu"):
    """What comes of an answer from the source."""
    begun = place.line(unproved.BEGINNING, called) if is_first else b""
    return out, begun + place.line(unproved.NOTICE, called) + err, status


def without_progress(found):
    """The same without the lines that come while the toolchain takes long."""
    out, err, status = found
    return out, b"".join(it for it in err.splitlines(True) if b": compiling: " not in it), status


# Without commands, processes and streams.

def forbid_processes(place):
    """One process, of another user if there is leave for it."""
    if os.geteuid() == 0:
        os.setgroups([])
        os.setgid(place.user)
        os.setuid(place.user)
    resource.setrlimit(resource.RLIMIT_NPROC, (1, 1))


def path_of(place, *commands):
    """A path with these commands alone."""
    folder = tempfile.mkdtemp(dir=place.room)
    for it in commands:
        with open(f"{folder}/{it}", "w", encoding="utf-8") as file:
            file.write(f"#!/bin/sh\nexec '{os.path.realpath(sys.executable)}' \"$@\"\n")
        os.chmod(f"{folder}/{it}", 0o755)
    return folder


def proved_without_commands(place):
    place.add_program()
    return differs(place.run(words(), path=path_of(place)), cases.expected(CASE))


def proved_without_processes(place):
    place.add_program()
    return differs(place.run(words(), before=forbid_processes), cases.expected(CASE))


def proved_by_bash_without_processes(place):
    """bash tries for some seconds to start the process without which it doesn't see that the program is whole."""
    place.add_program()
    return differs(place.run(words(), command=["bash", place.top + "/alphamu"], before=forbid_processes), cases.expected(CASE))


def proved_that_does_not_start(place):
    """The system lacks what the program names as its loader."""
    place.add_program()
    with open(place.program, "rb+") as file:
        head = file.read(4096)
        file.seek(0)
        file.write(head.replace(b"/ld-linux", b"/no-linux"))
    out, err, status = place.run(words())
    said = place.line(f"cannot run {place.program}")
    return differs((out, err[-len(said):], status), (b"", said, unproved.NO_ANSWER))


def old_without_toolchain(*commands):
    def trial(place):
        place.add_program(age=60)
        out, err, status = cases.expected(CASE)
        said = place.line("this answer comes from a proved program that is older than its source: rt and python3 aren't both on the path")
        return differs(place.run(words(), path=path_of(place, *commands)), (out, said + err, status))
    return trial


def nothing_without_python(place):
    return differs(place.run(words(), path=path_of(place)), unanswered(
        place, "there is no proved program, and python3, with which the toolchain makes it, isn't on the path"))


def nothing_without_toolchain(place):
    return differs(place.run(words(), path=path_of(place, "python3")), unanswered(
        place, "there is no proved program, and the toolchain's command rt, which makes it, isn't on the path"))


def nothing_without_processes(place):
    place.add_toolchain(ANSWERS)
    out, err, status = place.run(words(), before=forbid_processes)
    is_told = not out and b": cannot start " in err and status == unproved.NO_ANSWER
    return None if is_told else f"{out!r} {err!r} {status}"


def failing_toolchain(place):
    place.add_toolchain(FAILS)
    out, err, status = place.run(words())
    begun = place.line(unproved.BEGINNING)
    told = b" can't be compiled; the toolchain says:\nchecked: no-answer: too hot\nrun=none proved=no\n"
    is_told = not out and err.startswith(begun) and err.endswith(told) and status == unproved.NO_ANSWER
    return None if is_told and not place.left() else f"{out!r} {err!r} {status} {place.left()}"


def answers_once(place):
    place.add_toolchain(ANSWERS)
    found = [place.run(words()) for _ in range(2)]
    once = place.calls()
    return (differs(without_progress(found[0]), by_source(place, *ANSWER)) or differs(found[1], by_source(place, *ANSWER, is_first=False))
            or (None if once == place.calls() <= 2 and not place.left() else f"called {once} times; left {place.left()}"))


def answers_two_at_once(place):
    """One of them compiles, and the other waits for it."""
    place.add_toolchain(ANSWERS)
    started = [place.start(words()) for _ in range(2)]
    found = [place.ended(it) for it in started]
    told = [out == ANSWER[0] and status == ANSWER[2] and err.endswith(place.line(unproved.NOTICE) + ANSWER[1]) for out, err, status in found]
    return None if all(told) and place.calls() <= 2 and not place.left() else f"{found!r}, called {place.calls()} times"


def study_by_source(place):
    place.add_toolchain(ANSWERS)
    cases.lay_out(OF_STUDY, place.work)
    for is_first in (True, False):
        found = place.run(cases.words_of(OF_STUDY), command=[place.top + "/study"])
        told = differs(without_progress(found), by_source(place, *cases.expected(OF_STUDY), is_first=is_first, called="study"))
        if told:
            return told
    return None


def old_study_without_toolchain(place):
    os.makedirs(f"{place.top}/crates/alphamu_study/out")
    shutil.copy(cases.STUDY, f"{place.top}/crates/alphamu_study/out/alphamu_study")
    os.utime(f"{place.top}/crates/alphamu_study/out/alphamu_study", (1, 1))
    cases.lay_out(OF_STUDY, place.work)
    out, err, status = cases.expected(OF_STUDY)
    said = place.line("this answer comes from a proved program that is older than its source: rt and python3 aren't both on the path", "study")
    return differs(place.run(cases.words_of(OF_STUDY), command=[place.top + "/study"], path=path_of(place)), (out, said + err, status))


def changed_source(place):
    """What was compiled from a source that is no longer there isn't run."""
    place.add_toolchain(CHANGES)
    said = place.line(unproved.BEGINNING) + place.line("a source was changed while it was compiled: ask again")
    return differs(without_progress(place.run(words())), (b"", said, unproved.NO_ANSWER)) or (
        place.left() or os.listdir(place.kept) != ["lock"]) and "something is kept"


def other_source(place):
    """After a change of a source the program is compiled again."""
    place.add_toolchain(ANSWERS)
    place.run(words())
    with open(f"{place.top}/{SOURCES[2]}", "a", encoding="ascii") as file:
        file.write("// more")
    return differs(without_progress(place.run(words())), by_source(place, *ANSWER)) or (
        None if len(os.listdir(place.kept)) == 2 else "the older program is still kept")


def without_streams(*streams):
    def trial(place):
        place.add_toolchain(ANSWERS)
        found = without_progress(place.run(words(), before=lambda _: [os.close(it) for it in streams]))
        out, err, status = ANSWER if 1 not in streams else (b"", ANSWER[1] + place.line("cannot write"), 8)
        out, err, status = by_source(place, out, err, status)
        return differs(found, (out, b"" if 2 in streams else err, status))
    return trial


def standard_input(place):
    """A file that comes by standard input, and one by a high number, reach the source."""
    place.add_toolchain(ANSWERS)
    asked = "--job=fusion --deal=/dev/stdin --layouts=/dev/fd/9".split()
    command = ["sh", "-c", 'cat deal.pbn | "$@" 9<layouts.lay', "sh", place.top + "/alphamu"]
    wanted = place.run(["--job=fusion", "--deal=deal.pbn", "--layouts=layouts.lay"], command=[cases.PROGRAM])
    return differs(without_progress(place.run(asked, command=command)), by_source(place, *wanted))


def lacks():
    yield "a proved program without any command", proved_without_commands
    yield "a proved program without a second process", proved_without_processes
    yield "a proved program by bash without a second process", proved_by_bash_without_processes
    yield "a proved program that doesn't start", proved_that_does_not_start
    yield "an old program without python3 and rt", old_without_toolchain()
    yield "an old program without rt", old_without_toolchain("python3")
    yield "no program and no python3", nothing_without_python
    yield "no program and no rt", nothing_without_toolchain
    yield "no program and no second process", nothing_without_processes
    yield "no program and a toolchain that fails", failing_toolchain
    yield "no program, twice", answers_once
    yield "no program, two at once", answers_two_at_once
    yield "no program of the study", study_by_source
    yield "an old program of the study without rt", old_study_without_toolchain
    yield "a source that changes while it is compiled", changed_source
    yield "a source that was changed since", other_source
    yield "no program, and files from streams", standard_input
    for gone in ((0,), (1,), (2,), (0, 1), (0, 2), (1, 2), (0, 1, 2)):
        yield f"no program without the streams {gone}", without_streams(*gone)


# Other shells and names.

def called_by(*command, in_top=False):
    def trial(place):
        place.add_program()
        os.symlink(place.top + "/alphamu", place.work + "/linked")
        os.symlink("linked", place.work + "/linked-twice")
        os.symlink("top of it", place.room + "/other")
        cases.lay_out(CASE, place.top)
        called = [it.format(top=place.top, room=place.room) for it in command]
        found = place.run(words(), command=called, cwd=place.top if in_top else place.work, path=f"{place.top}:{os.environ['PATH']}")
        return differs(found, cases.expected(CASE))
    return trial


def names():
    for shell in ("sh", "bash", "dash", "busybox sh"):
        if shutil.which(shell.split()[0]):
            yield f"{shell} alphamu", called_by(*shell.split(), "alphamu", in_top=True)
            yield f"{shell} with a path", called_by(*shell.split(), "{top}/alphamu")
    yield "by the path", called_by("alphamu")
    yield "in its folder", called_by("./alphamu", in_top=True)
    yield "by a link", called_by("./linked")
    yield "by a link to a link", called_by("./linked-twice")
    yield "by a link to its folder", called_by("{room}/other/alphamu")


# Signals. Keys of a terminal send theirs to the launcher and all that it started.

def met_by(name, delay, by_key):
    """The signal comes while the launcher or the toolchain is at work. Python may name one that comes as it starts."""
    def trial(place):
        place.add_toolchain(WAITS)
        process = place.start(words())
        time.sleep(delay)
        (os.killpg if by_key else os.kill)(process.pid, getattr(signal, "SIG" + name))
        out, err, status = place.ended(process)
        ended = -getattr(signal, "SIG" + name)
        is_early = name == "INT" and status in (1, ended) and err.endswith(b"KeyboardInterrupt\n")
        wanted = [(b"", it, ended) for it in (b"", place.line(unproved.BEGINNING))]
        return (None if is_early else differs((out, err, status), *wanted)) or gone(place)
    return trial


def gone(place, left=Place.left):
    """What is still left a few seconds later."""
    end = time.monotonic() + 10
    while left(place) and time.monotonic() < end:
        time.sleep(0.05)
    return f"left behind: {left(place)}" if left(place) else None


def launcher_killed(place):
    """What the launcher started ends. The next compile removes its folder."""
    place.add_toolchain(WAITS)
    process, end = place.start(words()), time.monotonic() + place.seconds
    while not os.path.exists(place.room + "/children") and time.monotonic() < end:
        time.sleep(0.02)
    process.kill()
    process.wait()
    if told := gone(place, Place.children):
        return told
    place.add_toolchain(ANSWERS)
    return differs(without_progress(place.run(words())), by_source(place, *ANSWER)) or gone(place)


def signals():
    for delay in (0, 0.002, 0.005, 0.01, 0.02, 0.04, 0.08, 0.2, 0.6):
        for name, by_key in (("INT", True), ("QUIT", True), ("HUP", False), ("TERM", False)):
            yield f"{name} after {delay} s", met_by(name, delay, by_key)
    yield "KILL for the launcher", launcher_killed


# Words that can't be right.

def refused(*asked, status=jobs.REFUSED):
    """They are answered at once: the toolchain isn't called, and no file is waited for."""
    def trial(place):
        place.add_toolchain(ANSWERS)
        os.mkfifo(place.work + "/pipe")
        main, terminal = pty.openpty()
        said = place.line(jobs.USAGE) + place.line(unproved.POINTER) if status == jobs.REFUSED else b""
        found = place.run([it.replace(b"TERMINAL", os.ttyname(terminal).encode()) for it in asked])
        os.close(main)
        os.close(terminal)
        return differs(found, (b"", said, status)) or ("the toolchain was called" if place.calls() else None)
    return trial


def all_of(terminal):
    """What was written to a terminal. It comes in parts, each a little later than it was written."""
    said = b""
    while select.select([terminal], [], [], 0.5)[0]:
        said += os.read(terminal, 4096)
    return said


def told_more(asked, more):
    """At a terminal the launcher's line follows the program's own, which a program that reads it gets alone."""
    def trial(place):
        place.add_program()
        main, terminal = pty.openpty()
        out, _, status = place.run(asked, err=terminal)
        said = all_of(main).replace(b"\r\n", b"\n")
        os.close(main)
        os.close(terminal)
        return differs((out, said, status), (b"", place.line(jobs.USAGE) + place.line(more), jobs.REFUSED)) or differs(
            place.run(asked), (b"", place.line(jobs.USAGE), jobs.REFUSED))
    return trial


def helped(place):
    """Help is there before any program, and without another command."""
    out, err, status = place.run([b"--help"], path=path_of(place))
    return None if (err, status) == (b"", 0) and b"./alphamu --help JOB" in out else f"{out!r} {err!r} {status}"


def refusals():
    yield "no words", refused()
    yield "--help", helped
    yield "a pipe for an option that isn't taken", refused(b"--job", b"list", b"--deal", b"deal.pbn", b"--layouts", b"pipe")
    yield "a pipe, and then no moves", refused(b"--job", b"solve", b"--deal", b"pipe", b"--layouts", b"layouts.lay")
    yield "a terminal for an option that isn't taken", refused(b"--job=list", b"--deal=deal.pbn", b"--report=TERMINAL")
    yield "a word that isn't text", refused(b"--job", b"list", b"--deal", b"\xff", status=unproved.NO_WORDS)
    yield "no words at a terminal, proved", told_more([], f"--job is missing: it takes one of {JOBS}")
    yield "other words at a terminal, proved", told_more(["--job", "list"], "--job list needs --deal: the name of a file")


# What is there of the program.

def state(place):
    return subprocess.run([place.top + "/checks/program_state"], check=False, cwd="/").returncode


def seen_as(wanted, change):
    """After this change the state of the program is another, and the source answers."""
    def trial(place):
        place.add_program()
        place.add_toolchain(ANSWERS)
        if state(place):
            return "it isn't current from the start"
        change(place)
        if state(place) != wanted:
            return f"the state is {state(place)}, and not {wanted}"
        return differs(without_progress(place.run(words())), by_source(place, *ANSWER))
    return trial


def cut_off(size):
    return seen_as(2, lambda place: place.add_program(size=size(os.path.getsize(place.program))))


def date(file, seconds):
    """The file is dated this many seconds from now."""
    def change(place):
        at = time.time() + seconds
        os.utime(f"{place.top}/{file}", (at, at))
    return change


def future_source(place):
    """./build says at once that it can't make a program that is newer; later it can."""
    date(SOURCES[2], 86400)(place)
    place.add_toolchain(BUILDS)
    late = f"build: {place.top}/{SOURCES[2]} is dated in the future, so no program could be newer: touch it\n".encode()
    told = differs(place.run([], command=[place.top + "/build"]), (b"", late, 70)) or ("rt was called" if place.calls() else None)
    date(SOURCES[2], -1)(place)
    built = place.run([], command=[place.top + "/build"])
    return told or (None if built[2] == 0 and state(place) == 0 else f"{built!r}")


def build_by_link(place):
    place.add_toolchain(BUILDS)
    os.symlink(place.top + "/build", place.work + "/linked")
    built = [place.run([], command=["./linked"]), place.run([], command=["bash", "build"], cwd=place.top)]
    is_told = built[1][1].startswith(b"build: nothing to do") and place.calls() == 4
    return None if is_told and built[0][2] == built[1][2] == 0 == state(place) else f"{built!r}"


def states():
    for size in (0, 4, 64, 4096):
        yield f"cut off after {size} bytes", cut_off(lambda whole, size=size: size)
    for part in (50, 99):
        yield f"cut off after {part} %", cut_off(lambda whole, part=part: whole * part // 100)
    for file in SOURCES:
        yield f"{file} is newer", seen_as(1, date(file, 60))
    yield "a file was added", seen_as(1, lambda place: (time.sleep(1.5), open(f"{place.top}/crates/alphamu/src/deep/a.rt", "wb").close()))
    yield "it isn't executable", seen_as(2, lambda place: os.chmod(place.program, 0o644))
    yield "a text", seen_as(2, lambda place: open(place.program, "w", encoding="ascii").write("#!/bin/sh\n"))
    yield "a source dated in the future", future_source
    yield "build by a link, and twice", build_by_link


def all_trials():
    for kind in (lacks, names, signals, refusals, states):
        for name, trial in kind():
            yield f"{kind.__name__}: {name}", trial


def tell(name, trial, place):
    try:
        fault = trial(place)
    except Exception as error:
        fault = repr(error)
    return fault and f"{name}: {fault}"


def main():
    parser = argparse.ArgumentParser(description="Calls the launcher in odd places.", allow_abbrev=False)
    parser.add_argument("--jobs", type=int, default=2 * len(os.sched_getaffinity(0)))
    parser.add_argument("--seconds", type=float, default=300)
    parser.add_argument("--only", default="*", metavar="PATTERN")
    given = parser.parse_args()
    # A shell has what it starts in the background ignore these signals, and so would all that is started here.
    for it in signal.SIGINT, signal.SIGQUIT, signal.SIGHUP:
        if signal.getsignal(it) == signal.SIG_IGN:
            signal.signal(it, signal.SIG_DFL)
    lacking = cases.lacks_program()
    if lacking:
        print(f"odd places: {lacking}")
        return 1
    with tempfile.TemporaryDirectory() as room, ThreadPoolExecutor(given.jobs) as pool:
        os.chmod(room, 0o755)
        chosen = [it for it in all_trials() if fnmatch.fnmatch(it[0], given.only)]
        places = [Place(room, FIRST_USER + at, given.seconds) for at in range(len(chosen))]
        told = list(filter(None, pool.map(lambda it, place: tell(*it, place), chosen, places)))
    print(*told, sep="\n", end="\n" * bool(told))
    print(f"odd places: {len(chosen)} trials, {len(told)} wrong")
    return 0 if chosen and not told else 1


if __name__ == "__main__":
    sys.exit(main())
