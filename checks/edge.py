#!/usr/bin/env python3
"""edge.py [--jobs N] [--seconds N] [--only PATTERN]

Tests the two types that the proofs trust, over real files and streams: StdSink, which writes to standard output, and
FileShelf, which reads a file. Their contracts say what they answer, but not that the system really wrote or held those
bytes. So a body that answers more than was written, or less than is there, is proved; each of these is caught here:

- A write that the system takes in part counts as whole. The text is then cut off and the status is 0. Caught by a limit
  on the size of the output, in many places of a text, and by a pipe whose reader takes one byte at a time.
- A file up to the limit is too long, or a longer one isn't. Caught by files of exactly the limit and of a byte more.
- A read that gives less than was asked for is the end of the file. Caught by files that come through a pipe, a byte or
  an odd number of bytes at a time.
- An error is the end of the file, or of the output. Caught by the trials on streams and files of checks/machine.py.

The programs are those of checks/cases.py. Prints what was wrong. The exit status is 0 only if nothing was. It
takes less than a minute.
"""
import argparse
import fcntl
import fnmatch
import os
import shutil
import signal
import struct
import subprocess
import sys
import tempfile
import termios
import threading
import time
from concurrent.futures import ThreadPoolExecutor

sys.dont_write_bytecode = True
import cases
import jobs
import machine

SHORT, LONG = "queen-two-ways", "list-of-a-whole-deal"
PAGE = 4096


# Output.

def limited_to(case, count):
    """No file may grow beyond this many bytes, neither the output nor the line: the system takes those, then refuses."""
    def trial(given):
        with tempfile.TemporaryFile() as out:
            _, err, status = given.run(case, machine.limit_to("FSIZE", count), out=out)
            out.seek(0)
            text, line, wanted = machine.unwritten(case, count)
            is_whole = text == cases.expected(case)[0]
            return machine.judged((out.read(), err, status), cases.expected(case) if is_whole else (text, line[:count], wanted))
    return trial


def is_stopped(process):
    with open(f"/proc/{process.pid}/stat", encoding="utf-8", errors="replace") as file:
        return file.read().rpartition(")")[2].split()[0] == "T"


def read_slowly(process, stream, got, seconds):
    """Reads a byte at a time. Whenever the pipe is full, the program is stopped, which ends its write with what the pipe
    has taken, and goes on."""
    end = time.monotonic() + seconds
    while time.monotonic() < end:
        held = struct.unpack("i", fcntl.ioctl(stream, termios.FIONREAD, bytes(4)))[0]
        if held == PAGE:
            process.send_signal(signal.SIGSTOP)
            while not is_stopped(process) and time.monotonic() < end:
                time.sleep(0.001)
            process.send_signal(signal.SIGCONT)
        elif not held and process.poll() is None:
            time.sleep(0.001)
            continue
        content = [os.read(stream, 1) for _ in range(held or 1)]
        got += content
        if not content[-1]:
            return


def slow_pipe(given):
    reads, writes = os.pipe()
    fcntl.fcntl(writes, fcntl.F_SETPIPE_SZ, PAGE)
    got = []

    def read(process):
        os.close(writes)
        read_slowly(process, reads, got, given.seconds)

    try:
        _, err, status = given.run(LONG, out=writes, after=read)
    finally:
        os.close(reads)
    return machine.judged((b"".join(got), err, status), cases.expected(LONG))


def output():
    of_study = machine.OF_STUDY
    for case, counts in ((SHORT, range(0, len(cases.expected(SHORT)[0]), 5)), (LONG, (PAGE - 1, PAGE, PAGE + 1, 2 * PAGE)),
                         (of_study, range(0, len(cases.expected(of_study)[0]), 20))):
        whole = len(cases.expected(case)[0])
        for count in (*counts, whole - 1, whole):
            yield f"{count} of {whole} bytes of {case}", limited_to(case, count)
    yield "a pipe that takes a byte at a time", slow_pipe


# Files.

def with_size(file, more):
    """The file has line feeds at its end, up to the limit and this many bytes more."""
    def spoil(folder):
        with open(os.path.join(folder, machine.NAMES[file]), "ab") as stream:
            stream.write(b"\n" * (jobs.FILES[file] + more - stream.tell()))
    return spoil


def through_pipe(file, size, spoil=None):
    """The file comes through a pipe, this many bytes at a time."""
    def change(folder):
        if spoil:
            spoil(folder)
        path = os.path.join(folder, machine.NAMES[file])
        with open(path, "rb") as stream:
            content = stream.read()
        os.remove(path)
        os.mkfifo(path)
        threading.Thread(target=feed, args=(path, content, size), daemon=True).start()
    return change


def feed(path, content, size):
    """Writes into a pipe, slowly at first, so that the reader gets no more than that at a time."""
    try:
        with open(path, "wb", buffering=0) as pipe:
            for at in range(0, len(content), size):
                pipe.write(content[at:at + size])
                time.sleep(0.03 if at < 3 * size else 0)
    except BrokenPipeError:
        pass


def read_from(case, spoil, wanted):
    def trial(given):
        return machine.judged(given.run(case, spoil=spoil), wanted)
    return trial


def refused_at_end(case, file, status, text):
    """What comes of line feeds after the end of a report or of a log: its first empty line is at fault."""
    count = cases.bytes_of(case, machine.NAMES[file]).count(b"\n")
    return machine.refused(status, text.format(count + 1).encode())


def sizes():
    reports, logs = machine.JOBS["check"], machine.JOBS["audit"]
    for case, file, at_limit in ((SHORT, "deal", cases.expected(SHORT)), (SHORT, "layouts", cases.expected(SHORT)),
                                 (reports, "report", refused_at_end(reports, "report", 11, "report line {}: End")),
                                 (logs, "log", refused_at_end(logs, "log", 15, "log file line {}"))):
        too_long = machine.refused(10, f"{file} too long".encode())
        for name, more, wanted in (("the longest", 0, at_limit), ("a byte too long", 1, too_long)):
            yield f"{file} {name}", read_from(case, with_size(file, more), wanted)
            yield f"{file} {name}, through a pipe", read_from(case, through_pipe(file, 4097, with_size(file, more)), wanted)
        yield f"{file} through a pipe, a byte at a time", read_from(case, through_pipe(file, 1), cases.expected(case))
        yield f"{file} through a pipe, seven bytes at a time", read_from(case, through_pipe(file, 7), cases.expected(case))


def all_trials():
    for kind, of_kind in (("output", output()), ("sizes", sizes()), ("streams", machine.streams()), ("files", machine.files(False))):
        for name, trial in of_kind:
            yield f"{kind}: {name}", trial


def main():
    parser = argparse.ArgumentParser(description="Tests what writes to streams and reads files.", allow_abbrev=False)
    parser.add_argument("--jobs", type=int, default=len(os.sched_getaffinity(0)))
    parser.add_argument("--seconds", type=float, default=600)
    parser.add_argument("--only", default="*", metavar="PATTERN")
    given = parser.parse_args()
    lacking = cases.lacks_program()
    if lacking:
        print(f"edge: {lacking}")
        return 1
    with tempfile.TemporaryDirectory() as room, ThreadPoolExecutor(given.jobs) as pool:
        os.chmod(room, 0o755)
        program = shutil.copy(cases.PROGRAM, room)
        chosen = [it for it in all_trials() if fnmatch.fnmatch(it[0], given.only)]
        made = [machine.Trial(program, room, given.seconds, machine.FIRST_USER + at) for at in range(len(chosen))]
        told = list(pool.map(lambda it, trial: it[1](trial), chosen, made))
    wrong = [f"{name}: {fault}" for (name, _), fault in zip(chosen, told) if fault]
    for line in wrong:
        print(line[:400])
    print(f"edge: {len(chosen)} trials, {len(wrong)} wrong")
    return 0 if chosen and not wrong else 1


if __name__ == "__main__":
    sys.exit(main())
