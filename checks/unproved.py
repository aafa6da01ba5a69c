"""unproved.py NAME TOP WORD..

Becomes the program NAME, compiled from the present sources, unproved and with checks as it runs; or ends with the status 70
and a line, if there is none. The launchers ./alphamu and ./study start it. TOP is the top of the repository, as the user
wrote it. Words that alphamu refuses are answered at once, by the list in checks/jobs.py, if the program isn't compiled yet.

`rt try` compiles the source into a folder of its own, runs the program there, and removes it. So the program is told to
read a pipe, and while it waits there, its file is copied: the system says which file that is. It is kept as
out/unproved/SUM/NAME, where SUM is the checksum of all sources, and answers from then on, until a source changes. With four
processors and enough memory both programs are compiled side by side, otherwise the one that is asked for.
"""
import signal

ENDING = signal.SIGHUP, signal.SIGINT, signal.SIGQUIT, signal.SIGTERM
if __name__ == "__main__":
    # Python may lose a signal while it reads other modules in.
    signal.pthread_sigmask(signal.SIG_BLOCK, ENDING)
import contextlib
import ctypes
import fcntl
import hashlib
import os
import re
import shutil
import subprocess
import sys
import tempfile
import time

sys.dont_write_bytecode = True
sys.path.insert(0, os.path.dirname(os.path.abspath(__file__)))
import jobs

# The programs by what the launchers are called, with words that make each read its deal file.
CALLED = {"alphamu": "alphamu", "alphamu_study": "study"}
READS = {"alphamu": ("--job", "list"), "alphamu_study": ("--job", "cards", "--layouts", "none", "--moves", "1")}
BEGINNING = "the program isn't proved yet, so it is compiled once, unproved: about a minute, more on a busy machine"
WAITING = "waiting for another launcher, which compiles the programs"
PROGRESS = "compiling: {stage}, {seconds} s so far"
NOTICE = "not proved: this answer comes from the same source, compiled unproved. {top}/build makes the proved one, in half an hour or more"
POINTER = "for help: {top}/alphamu --help"
NO_WORDS, NO_ANSWER = 64, 70
# What both compiles take, in processors and KiB.
PROCESSORS, MEMORY = 4, 6_000_000
# The seconds between two lines while the toolchain compiles, and how long the program may wait to be copied.
BETWEEN, MOST_SECONDS = 5, "600"
# An error of memory that the checks find ends the program with the launchers' status.
CHECKS = {"ASAN_OPTIONS": f"exitcode={NO_ANSWER}"}


class NoAnswer(Exception):
    """Why there is no program."""


class Ended(BaseException):
    """A signal that ends this process."""


@contextlib.contextmanager
def may_end():
    """Only within it does a signal end this process, so that nothing is left behind."""
    signal.pthread_sigmask(signal.SIG_UNBLOCK, ENDING)
    try:
        yield
    finally:
        signal.pthread_sigmask(signal.SIG_BLOCK, ENDING)


def say(called, line):
    with contextlib.suppress(OSError):
        os.write(2, os.fsencode(f"{called}: {line}\n"))


def sources(top):
    """All that a program is compiled from."""
    yield from (os.path.join(top, name) for name in ("crates.txt", "HANDLES"))
    for crate in sorted(os.listdir(os.path.join(top, "crates"))):
        for folder, folders, files in os.walk(os.path.join(top, "crates", crate, "src")):
            folders.sort()
            yield from (os.path.join(folder, name) for name in sorted(files))


def kept(top, name):
    """The place of the program that is compiled from the present sources. It need not be there."""
    total = hashlib.sha256()
    for path in sources(top):
        with open(path, "rb") as file:
            content = file.read()
        total.update(f"{os.path.relpath(path, top)} {len(content)}\n".encode() + content)
    return os.path.join(top, "out", "unproved", total.hexdigest()[:20], name)


def is_there(path):
    return os.access(path, os.X_OK)


class Compile:
    """The toolchain at work on one program, in a folder of its own."""

    def __init__(self, top, name, room):
        self.name, self.room = name, room
        self.pipe, self.written = os.path.join(room, "deal"), os.path.join(room, "written")
        os.mkdir(room)
        os.mkfifo(self.pipe)
        words = ["rt", "try", "--steps", "1", "--seconds", MOST_SECONDS, "--", *READS[name], "--deal", self.pipe]
        system, us = ctypes.CDLL(None), os.getpid()

        def prepare():
            for it in ENDING:
                if signal.getsignal(it) != signal.SIG_IGN:
                    signal.signal(it, signal.SIG_DFL)
            signal.pthread_sigmask(signal.SIG_UNBLOCK, ENDING)
            # The toolchain ends if this process is killed.
            system.prctl(1, signal.SIGTERM)
            os.getppid() == us or os._exit(1)

        with open(self.written, "wb") as written:
            how = {"stdin": subprocess.DEVNULL, "stdout": written, "stderr": written, "start_new_session": True, "preexec_fn": prepare}
            try:
                self.tool = subprocess.Popen(words, cwd=os.path.join(top, "crates", name), env={**os.environ, "TMPDIR": room}, **how)
            except OSError as error:
                raise NoAnswer(f"cannot start the toolchain's command rt: {error.strerror}") from error

    def has_code(self):
        """Whether the sources are read and machine code is made, for which the toolchain makes folders below its own."""
        return any(it.is_dir() for own in os.scandir(self.room) if own.is_dir() for it in os.scandir(own.path))

    def program(self):
        """The file that a process executes from the folder."""
        wanted = re.compile(rf"(?m)^\S+ r-xp (?:\S+ +){{3}}({re.escape(self.room)}/.+)$")
        for process in filter(str.isdigit, os.listdir("/proc")):
            with contextlib.suppress(OSError), open(f"/proc/{process}/maps", encoding="utf-8", errors="surrogateescape") as maps:
                if found := wanted.search(maps.read()):
                    return found[1]
        raise NoAnswer("the program that the toolchain compiled isn't found")

    def is_done(self, copy):
        """Whether there is a copy of the program, which is made as soon as the program waits for its deal file."""
        if self.tool.poll() is not None:
            raise NoAnswer(self.why())
        try:
            pipe = os.open(self.pipe, os.O_WRONLY | os.O_NONBLOCK)
        except OSError:
            return False
        try:
            shutil.copyfile(self.program(), copy)
            os.chmod(copy, 0o755)
        finally:
            os.close(pipe)
        return True

    def end(self):
        """Ends the toolchain, which ends what it started itself."""
        if self.tool.poll() is None:
            self.tool.terminate()
            try:
                self.tool.wait(10)
            except subprocess.TimeoutExpired:
                self.tool.kill()
                self.tool.wait()

    def why(self):
        """The last lines that the toolchain wrote, which is why there is no program."""
        with open(self.written, encoding="utf-8", errors="replace") as written:
            lines = [line.rstrip() for line in written if line.strip()]
        return "\n".join([f"{self.name} can't be compiled; the toolchain says:", *lines[-10:]])


def names_to_compile(name):
    """Both programs if that takes no longer, and otherwise the one that is asked for."""
    with open("/proc/meminfo", encoding="ascii") as file:
        room = int(re.search(r"MemAvailable: +(\d+)", file.read())[1])
    return [name, *(it for it in CALLED if it != name and len(os.sched_getaffinity(0)) >= PROCESSORS and room >= MEMORY)]


def follow(compiles, room, tell):
    """Says every few seconds how far the compiles have come, until there is a copy of each program in the folder."""
    begun = said = time.monotonic()
    while compiles:
        with may_end():
            time.sleep(0.1)
        for it in [it for it in compiles if it.is_done(os.path.join(room, it.name))]:
            compiles.remove(it)
            it.end()
        now = time.monotonic()
        if compiles and now - said >= BETWEEN:
            stage = "making machine code" if all(it.has_code() for it in compiles) else "reading the sources"
            tell(PROGRESS.format(stage=stage, seconds=int(now - begun)))
            said = now


def compile_all(top, names, tell):
    """Compiles the programs side by side and keeps them for the present sources, in place of any for older ones."""
    if shutil.which("rt") is None:
        raise NoAnswer("there is no proved program, and the toolchain's command rt, which makes it, isn't on the path")
    homes = [kept(top, it) for it in names]
    folder = os.path.dirname(homes[0])
    for old in os.listdir(os.path.dirname(folder)):
        if old not in ("lock", os.path.basename(folder)):
            shutil.rmtree(os.path.join(os.path.dirname(folder), old), ignore_errors=True)
    room, compiles = os.path.realpath(tempfile.mkdtemp(dir=os.path.dirname(folder))), []
    try:
        tell(BEGINNING)
        for it in names:
            compiles.append(Compile(top, it, os.path.join(room, f"for-{it}")))
        follow(list(compiles), room, tell)
        if homes != [kept(top, it) for it in names]:
            raise NoAnswer("a source was changed while it was compiled: ask again")
        os.makedirs(folder, exist_ok=True)
        for name, home in zip(names, homes):
            os.replace(os.path.join(room, name), home)
    finally:
        for it in compiles:
            it.end()
        shutil.rmtree(room, ignore_errors=True)


def make(top, name, names, tell):
    """Compiles those of the programs that aren't there for the present sources, if NAME is one of them. Another launcher
    that does so is waited for."""
    if is_there(kept(top, name)):
        return
    try:
        os.makedirs(os.path.join(top, "out", "unproved"), exist_ok=True)
        lock = open(os.path.join(top, "out", "unproved", "lock"), "wb")
    except OSError as error:
        raise NoAnswer(f"cannot write in {top}/out") from error
    with lock:
        try:
            fcntl.flock(lock, fcntl.LOCK_EX | fcntl.LOCK_NB)
        except OSError:
            tell(WAITING)
            with may_end():
                fcntl.flock(lock, fcntl.LOCK_EX)
        if not is_there(kept(top, name)):
            compile_all(top, [it for it in names if not is_there(kept(top, it))], tell)


def make_all(top, names, tell):
    """Compiles these programs, unless they are there."""
    for name in names:
        make(top, name, [it for it in names_to_compile(name) if it in names], tell)


def refuse(name, top, words):
    """Answers at once the words that alphamu refuses. The status, or none for other words."""
    try:
        options = jobs.options_in([os.fsencode(word).decode() for word in words])
    except UnicodeDecodeError:
        # The system then gives the program no words, and it ends without a line.
        return NO_WORDS
    if options is None:
        say(CALLED[name], jobs.USAGE)
        say(CALLED[name], POINTER.format(top=top))
        return jobs.REFUSED
    return None


def become(name, top, words):
    """Becomes the program, or returns a status to end with."""
    if name == "alphamu" and (status := refuse(name, top, words)) is not None:
        return status
    make(top, name, names_to_compile(name), lambda line: say(CALLED[name], line))
    path = kept(top, name)
    say(CALLED[name], NOTICE.format(top=top))
    for it in ENDING:
        if signal.getsignal(it) != signal.SIG_IGN:
            signal.signal(it, signal.SIG_DFL)
    signal.pthread_sigmask(signal.SIG_UNBLOCK, ENDING)
    os.execve(path, [path, *words], {**os.environ, **CHECKS})


def end(number, _):
    raise Ended(number)


def main(name, top, *words):
    signal.pthread_sigmask(signal.SIG_BLOCK, ENDING)
    for it in ENDING:
        if signal.getsignal(it) != signal.SIG_IGN:
            signal.signal(it, end)
    try:
        return become(name, top, words)
    except NoAnswer as why:
        say(CALLED[name], why)
    except Ended as signalled:
        signal.signal(signalled.args[0], signal.SIG_DFL)
        signal.pthread_sigmask(signal.SIG_UNBLOCK, ENDING)
        os.kill(os.getpid(), signalled.args[0])
    except Exception as error:
        say(CALLED[name], f"no answer: {error!r}")
    return NO_ANSWER


if __name__ == "__main__":
    sys.exit(main(*sys.argv[1:]))
