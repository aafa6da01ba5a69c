#!/usr/bin/env python3
"""machine.py [--jobs N] [--seconds N] [--only PATTERN]

Runs alphamu where the machine lets it down: streams that are full, closed or broken, names that are no readable file,
little memory, little stack, no threads, many runs at once, and signals in the middle. No run may hang, or end by a
signal that wasn't sent. Each must end either with the right status and the right bytes, or with the status and the line
that docs/REFUSALS.md gives for what failed, and no output; a failed write leaves the first bytes.

Trials with streams, files and signals are made with the launcher ./alphamu and with the proved program, which ./build
makes; the others only with the program. Prints what was wrong, and the number of trials of each kind. The exit status is
0 only if nothing was wrong.
"""
import argparse
import collections
import fnmatch
import os
import shutil
import signal
import subprocess
import sys
import tempfile
import time
from concurrent.futures import ThreadPoolExecutor

sys.dont_write_bytecode = True
import cases

# A run of each job, one with workers, and one with all cards played out.
JOBS = {
    "solve": "queen-two-ways",
    "card": "card",
    "fusion": "fusion",
    "list": "list-of-an-ending",
    "check": "check-a-good-report",
    "match": "match-won",
    "prove": "prove-two-moves",
    "audit": "audit-two-moves",
    "boards": "boards",
    "made": "made-of-0",
    "workers": "made-of-2-with-workers",
    "slam": "club-evening-after-seven-tricks",
}
# Runs that go deep into plans.
DEEP = {"deep plan": "check-a-deep-plan", "64 levels": "check-of-64-levels", "to the end": "queen-two-ways-to-the-end"}
# A run of alphamu_study.
OF_STUDY = "study/cards-queen-two-ways"
# A run that is refused, so that it has a line to write.
REFUSED = "deal-empty"
# A run that is long enough to receive a signal.
LONG = "made-of-the-greatest-number"
# The names of the input files in these cases.
NAMES = {"deal": "deal.pbn", "layouts": "layouts.lay", "report": "report.txt", "log": "log.txt"}
IS_ROOT = os.geteuid() == 0
# Users without processes or files, one for each trial that needs one.
FIRST_USER = 60000
# Signals that end a process, and signals that don't. The program handles only PIPE, from its start on.
DEADLY = ("HUP", "INT", "QUIT", "USR1", "USR2", "ALRM", "TERM", "KILL", "XCPU", "PIPE")
HARMLESS = ("CHLD", "CONT", "URG", "WINCH")
# What the new process does before it becomes the program.
WRAPPER = """
import os, resource, signal, sys
signal.signal(signal.SIGPIPE, signal.SIG_DFL)
{before}
os.execv(sys.argv[1], sys.argv[1:])
"""


# The outcomes of a run: standard output, standard error and exit status.

def refused(status, line):
    return b"", b"alphamu: " + line + b"\n", status


def unread(file):
    return refused(3, b"cannot read " + file.encode())


def unwritten(case, count=0):
    """Only the first bytes were written."""
    return cases.expected(case)[0][:count], b"alphamu: cannot write\n", 8


NO_MEMORY = refused(9, b"out of memory")
TOO_LONG = refused(10, b"deal too long")
NO_GAME = refused(4, b"deal line 1: NoGame")


# Statements for the wrapper.

def limit_to(kind, size):
    return f"resource.setrlimit(resource.RLIMIT_{kind}, ({size}, {size}))"


def close(*streams):
    return "\n".join(f"os.close({stream})" for stream in streams)


def become(user):
    """Become another user, if this one may."""
    return f"os.setgroups([]); os.setgid({user}); os.setuid({user})" if IS_ROOT else ""


# How a run is made.

class Trial:
    """What a trial needs: the program, the folder for its files, its time limit and a user of its own. Cases of alphamu_study are run by
    that program."""

    def __init__(self, program, room, seconds, user):
        self.program, self.room, self.seconds, self.user = program, room, seconds, user

    def start(self, case, out, err, before, words, spoil):
        folder = tempfile.mkdtemp(dir=self.room)
        os.chmod(folder, 0o755)
        cases.lay_out(case, folder)
        if spoil:
            spoil(folder)
        wrapped = [sys.executable, "-I", "-c", WRAPPER.format(before=before)] if before else []
        program = cases.STUDY if case.startswith(cases.OF_STUDY + "/") else self.program
        return subprocess.Popen([*wrapped, os.fsencode(program), *(words or cases.words_of(case))], cwd=folder,
                                stdin=subprocess.DEVNULL, stdout=out, stderr=err)

    def run(self, case, before="", words=None, spoil=None, out=None, err=None, after=None):
        """The outcome of a run; the status is none if it didn't end. A stream that is passed in counts as empty. `after`
        is called with the process once it has started."""
        with tempfile.TemporaryFile() as own_out, tempfile.TemporaryFile() as own_err:
            with self.start(case, out or own_out, err or own_err, before, words, spoil) as process:
                if after:
                    after(process)
                try:
                    status = process.wait(self.seconds)
                except subprocess.TimeoutExpired:
                    process.kill()
                    status = None
            own_out.seek(0)
            own_err.seek(0)
            return own_out.read(), own_err.read(), status


def judged(found, *allowed):
    """What is wrong with the outcome of a run, or nothing."""
    if found in allowed:
        return None
    return "no end" if found[2] is None else f"{found!r}, and not " + " or ".join(map(repr, allowed))


# Streams.

def to_device(path, mode):
    def trial(given):
        with open(path, mode) as device:
            return judged(given.run(JOBS["solve"], out=device), unwritten(JOBS["solve"]))
    return trial


def disk_full_after(count):
    """No file may grow beyond this many bytes."""
    def trial(given):
        with tempfile.TemporaryFile() as out:
            _, _, status = given.run(JOBS["solve"], limit_to("FSIZE", count), out=out, err=subprocess.DEVNULL)
            out.seek(0)
            wanted = unwritten(JOBS["solve"], count)
            return judged((out.read(), status), (wanted[0], wanted[2]))
    return trial


def without(case, *streams):
    """The process doesn't have these streams at all."""
    def trial(given):
        is_unwritten = 1 in streams and cases.expected(case)[2] in (0, 8)
        out, err, status = unwritten(case) if is_unwritten else cases.expected(case)
        return judged(given.run(case, close(*streams)), (out, b"" if 2 in streams else err, status))
    return trial


def broken_output(given):
    reads, writes = os.pipe()
    os.close(reads)
    with open(writes, "wb") as pipe:
        return judged(given.run(JOBS["solve"], out=pipe), unwritten(JOBS["solve"]))


def broken_error(case):
    def trial(given):
        reads, writes = os.pipe()
        os.close(reads)
        out, _, status = cases.expected(case)
        with open(writes, "wb") as pipe:
            return judged(given.run(case, err=pipe), (out, b"", status))
    return trial


def filled_pipe():
    """Both ends of a full pipe, and how many bytes it holds."""
    reads, writes = os.pipe()
    os.set_blocking(writes, False)
    held = 0
    try:
        while True:
            held += os.write(writes, bytes(4096))
    except BlockingIOError:
        return open(reads, "rb"), open(writes, "wb", buffering=0), held


def pipe_that_refuses(given):
    reads, writes, _ = filled_pipe()
    with reads, writes:
        return judged(given.run(JOBS["solve"], out=writes), unwritten(JOBS["solve"]))


def pipe_that_waits(given):
    """The program waits for room in the pipe, is stopped there and continued; then the pipe is read."""
    reads, writes, held = filled_pipe()
    os.set_blocking(writes.fileno(), True)

    def stop_and_go_on(process):
        time.sleep(0.5)
        for name in (*HARMLESS, "STOP", "CONT", *HARMLESS):
            process.send_signal(getattr(signal, "SIG" + name))
            time.sleep(0.05)
        writes.close()
        got.append(reads.read()[held:])

    got = []
    with reads, writes:
        _, err, status = given.run(JOBS["solve"], out=writes, after=stop_and_go_on)
    return judged((got[0], err, status), cases.expected(JOBS["solve"]))


def streams():
    yield "full disk", to_device("/dev/full", "wb")
    for count in (1, 7, 100):
        yield f"disk full after {count} bytes", disk_full_after(count)
    yield "output open for reading alone", to_device("/dev/null", "rb")
    yield "broken pipe as output", broken_output
    yield "broken pipe as error, done", broken_error(JOBS["solve"])
    yield "broken pipe as error, refused", broken_error(REFUSED)
    yield "full pipe that refuses", pipe_that_refuses
    yield "full pipe that waits", pipe_that_waits
    for case in (JOBS["solve"], REFUSED, "words-help", OF_STUDY):
        for gone in ((0,), (1,), (2,), (0, 1), (0, 2), (1, 2), (0, 1, 2)):
            yield f"{case} without {' '.join(map(str, gone))}", without(case, *gone)


# Files.

def spoiled(file, spoil, *allowed, as_other=False, name=None, job="audit"):
    """The named file is turned into something else before the run."""
    def trial(given):
        before = become(given.user) if as_other else ""
        found = given.run(JOBS[job], before, spoil=lambda folder: spoil(os.path.join(folder, name or NAMES[file])))
        return judged(found, *(allowed or [unread(file)]))
    return trial


def to_folder(path):
    os.remove(path)
    os.mkdir(path)


def link_to(target):
    def spoil(path):
        os.remove(path)
        os.symlink(target, path)
    return spoil


def close_to_all(path):
    os.chmod(path, 0)


def put_in_closed_folder(path):
    folder = path + ".folder"
    os.mkdir(folder)
    os.rename(path, os.path.join(folder, "file"))
    os.symlink(os.path.join(folder, "file"), path)
    os.chmod(folder, 0)


def named(name):
    """A name that no file has."""
    def trial(given):
        words = [name if word == os.fsencode(NAMES["deal"]) else word for word in cases.words_of(JOBS["audit"])]
        return judged(given.run(JOBS["audit"], words=words), unread("deal"))
    return trial


def files(is_launcher):
    for file, name in NAMES.items():
        yield f"{file} is a folder", spoiled(file, to_folder)
        yield f"{file} isn't there", spoiled(file, os.remove)
        yield f"{file} is a link to nothing", spoiled(file, link_to("nowhere"))
        yield f"{file} is a link to itself", spoiled(file, link_to(name))
        yield f"{file} fails as it is read", spoiled(file, link_to("/proc/self/mem"))
        # Another user may not be allowed to read the launcher's folder.
        if not (is_launcher and IS_ROOT):
            yield f"{file} may not be read", spoiled(file, close_to_all, as_other=True)
            yield f"{file} is in a closed folder", spoiled(file, put_in_closed_folder, as_other=True)
    for number in (1, 3):
        name = f"{NAMES['layouts']}.{number}"
        yield f"{name} is a folder", spoiled("layouts", to_folder, name=name, job="boards")
        yield f"{name} isn't there", spoiled("layouts", os.remove, name=name, job="boards")
        yield f"{name} fails as it is read", spoiled("layouts", link_to("/proc/self/mem"), name=name, job="boards")
    yield "deal has no end", spoiled("deal", link_to("/dev/zero"), TOO_LONG)
    yield "deal has nothing", spoiled("deal", link_to("/dev/null"), NO_GAME)
    yield "a name too long for the system", named(b"n" * 300)
    yield "a path too long for the system", named(b"./" * 3000 + b"n")
    yield "a name below a file", named(b"deal.pbn/n")


# Memory, stack and threads: under a limit the run either is as without it, or ends out of memory.

def limited(kind, size, case, other_user=False):
    def trial(given):
        before = f"{become(given.user) if other_user else ''}\n{limit_to(kind, size)}"
        return judged(given.run(case, before), cases.expected(case), NO_MEMORY)
    return trial


def address_space():
    sizes = [*range(20, 64, 2), *range(64, 256, 16), *range(256, 1024, 64), 1024, 2048, 4096]
    for job, case in JOBS.items():
        for size in sizes:
            yield f"{job} in {size} MiB", limited("AS", size << 20, case)


def stack():
    for job, case in {**JOBS, **DEEP}.items():
        for size in (64, 80, 96, 112, 128, 160, 192, 256, 512, 1024, 2048, 4096):
            yield f"{job} with {size} KiB", limited("STACK", size << 10, case)


def threads():
    """A limit on the processes and threads of one user."""
    for job in ("fusion", "workers", "boards", "solve"):
        for count in (1, 2, 3, 4):
            yield f"{job} with {count}", limited("NPROC", count, JOBS[job], other_user=True)


# Many at once, and signals.

def many(given):
    chosen = [list(JOBS.values())[at % len(JOBS)] for at in range(64)]
    with ThreadPoolExecutor(len(chosen)) as pool:
        told = list(pool.map(lambda case: judged(given.run(case), cases.expected(case)), chosen))
    return "; ".join(it for it in told if it)


def met_by(name, delay):
    def send(process):
        time.sleep(delay)
        process.send_signal(getattr(signal, "SIG" + name))
        if name == "STOP":
            time.sleep(0.1)
            process.send_signal(signal.SIGCONT)

    def trial(given):
        right, number = cases.expected(LONG), -getattr(signal, "SIG" + name, 0)
        ended = [(b"", b"", number), (right[0], b"", number)] if name in DEADLY else []
        return judged(given.run(LONG, after=send), right, *ended)
    return trial


def signals():
    for delay in (0, 0.002, 0.01, 0.03, 0.1, 0.3):
        for name in (*DEADLY, *HARMLESS, "STOP"):
            yield f"{name} after {delay} s", met_by(name, delay)


def all_trials(program):
    """Kind, name, program and trial."""
    for by, tried in (("launcher: ", cases.LAUNCHER), ("", program)):
        kinds = {"streams": streams(), "files": files(bool(by)), "signals": signals()}
        if not by:
            kinds |= {"address space": address_space(), "stack": stack(), "threads": threads(),
                      "64 runs at once": [("of all jobs", many)]}
        for kind, of_kind in kinds.items():
            for name, trial in of_kind:
                yield kind, f"{by}{kind}: {name}", tried, trial


def main():
    parser = argparse.ArgumentParser(description="Runs alphamu where the machine is hostile.", allow_abbrev=False)
    parser.add_argument("--jobs", type=int, default=len(os.sched_getaffinity(0)))
    parser.add_argument("--seconds", type=float, default=120)
    parser.add_argument("--only", default="*", metavar="PATTERN")
    given = parser.parse_args()
    lacking = cases.lacks_proved()
    if lacking:
        print(f"machine: {lacking}")
        return 1
    with tempfile.TemporaryDirectory() as room:
        os.chmod(room, 0o755)
        program = shutil.copy(cases.PROGRAM, room)
        chosen = [it for it in all_trials(program) if fnmatch.fnmatch(it[1], given.only)]
        made = [Trial(it[2], room, given.seconds, FIRST_USER + at) for at, it in enumerate(chosen)]
        with ThreadPoolExecutor(given.jobs) as pool:
            told = list(pool.map(lambda it, trial: it[3](trial), chosen, made))
    for line in [f"{it[1]}: {fault}" for it, fault in zip(chosen, told) if fault]:
        print(line)
    for kind, count in collections.Counter(it[0] for it in chosen).items():
        print(f"machine: {kind}: {count} trials")
    print(f"machine: {len(chosen)} trials, {sum(map(bool, told))} wrong")
    return 0 if chosen and not any(told) else 1


if __name__ == "__main__":
    sys.exit(main())
