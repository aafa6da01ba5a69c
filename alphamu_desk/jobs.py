"""Runs alphamu_study: a process for each question, which ends as soon as nobody waits for its answer."""
from __future__ import annotations

import contextlib
import hashlib
import os
import selectors
import signal
import socket
import subprocess
import threading
import time
from collections.abc import Callable, Iterator, Sequence

# Bytes that an answer may have, and seconds between two looks at whether somebody waits.
MOST, BETWEEN = 64 << 20, 0.05
Told = Callable[[str], None]


class Stopped(Exception):
    """Nobody waits for the answer any more."""


class OutOfTime(Exception):
    """The time for a question is up."""


class Refused(Exception):
    """The program's own line, without its name before it, and its status."""

    def __init__(self, line: str, status: int) -> None:
        super().__init__(line)
        self.line, self.status = line, status


class Waiter:
    """Who waits for an answer: the other end of a connection, or nobody who could go."""

    def __init__(self, connection: socket.socket | None = None) -> None:
        self.connection = connection

    def is_gone(self) -> bool:
        if self.connection is None:
            return False
        try:
            return self.connection.recv(1, socket.MSG_PEEK | socket.MSG_DONTWAIT) == b""
        except BlockingIOError:
            return False
        except OSError:
            return True


def silent(line: str) -> None:
    """Does nothing with a line about how far a program is compiled."""


class Jobs:
    """The questions at work. At most as many run as there are processors, and one fewer in the background."""

    def __init__(self, program: Sequence[str], folder: str) -> None:
        count = os.cpu_count() or 1
        self.program, self.folder = list(program), folder
        self.slots, self.background = threading.BoundedSemaphore(count), threading.BoundedSemaphore(max(1, count - 1))
        self.lock, self.running, self.has_ended = threading.Lock(), set[subprocess.Popen[bytes]](), False
        self.ready, self.notice, self.is_unproved = threading.Event(), "", False

    def warm_up(self) -> None:
        """Has an unproved program compiled, if there is no proved one, before the first question waits for it."""
        def heard(line: str) -> None:
            self.notice = line
        with contextlib.suppress(Refused, Stopped, OutOfTime, OSError):
            self.run(["--job", "cards"], Waiter(), 3600, heard)
        self.ready.set()

    def file(self, text: str, ending: str) -> str:
        """The name of a file with this text, for the program alone."""
        path = os.path.join(self.folder, hashlib.sha256(text.encode()).hexdigest()[:32] + ending)
        if not os.path.exists(path):
            with open(f"{path}.{threading.get_ident()}", "w", encoding="utf-8") as file:
                file.write(text)
            os.replace(file.name, path)
        return path

    def ask(self, words: Sequence[str], waiter: Waiter, seconds: float = 600, told: Told = silent, is_behind: bool = False) -> str:
        """What the program writes. Raises Refused, OutOfTime or Stopped."""
        said = ""
        while not self.ready.wait(BETWEEN):
            self.check(waiter)
            if self.notice != said:
                said = self.notice
                told(said)
        with self.slot(self.background, waiter) if is_behind else contextlib.nullcontext(), self.slot(self.slots, waiter):
            answer = self.run(words, waiter, seconds, told)
        return answer

    def check(self, waiter: Waiter) -> None:
        if self.has_ended or waiter.is_gone():
            raise Stopped

    @contextlib.contextmanager
    def slot(self, slots: threading.BoundedSemaphore, waiter: Waiter) -> Iterator[None]:
        while not slots.acquire(timeout=BETWEEN):
            self.check(waiter)
        try:
            yield
        finally:
            slots.release()

    def run(self, words: Sequence[str], waiter: Waiter, seconds: float, told: Told) -> str:
        with self.lock:
            self.check(waiter)
            # A closed pipe must be a failed write of the program, so the signal PIPE stays as it is here: ignored.
            process = subprocess.Popen([*self.program, *words], stdin=subprocess.DEVNULL, stdout=subprocess.PIPE, stderr=subprocess.PIPE,
                                       start_new_session=True, restore_signals=False)
            self.running.add(process)
        try:
            out, err = self.read(process, waiter, time.monotonic() + seconds, told)
            status = process.wait()
        finally:
            self.end(process)
        lines = err.decode(errors="replace").splitlines()
        self.is_unproved |= any("not proved:" in it for it in lines)
        if status:
            own = [it for it in lines if not it.startswith("study: ")] or lines or [f"no answer, status {status}"]
            raise Refused(own[-1].removeprefix("alphamu: "), status)
        return out.decode(errors="replace")

    def read(self, process: subprocess.Popen[bytes], waiter: Waiter, end: float, told: Told) -> tuple[bytes, bytes]:
        """Standard output and standard error, up to their ends."""
        assert process.stdout and process.stderr
        got = {process.stdout.fileno(): bytearray(), process.stderr.fileno(): bytearray()}
        with selectors.DefaultSelector() as waiting:
            for stream in got:
                waiting.register(stream, selectors.EVENT_READ)
            while waiting.get_map():
                for key, _ in waiting.select(BETWEEN):
                    part = os.read(key.fd, 1 << 16)
                    got[key.fd] += part
                    if not part:
                        waiting.unregister(key.fd)
                    elif key.fd == process.stderr.fileno():
                        told(got[key.fd].decode(errors="replace").splitlines()[-1])
                self.check(waiter)
                if time.monotonic() > end or sum(map(len, got.values())) > MOST:
                    raise OutOfTime
        return bytes(got[process.stdout.fileno()]), bytes(got[process.stderr.fileno()])

    def end(self, process: subprocess.Popen[bytes]) -> None:
        """Ends a process with all that it has started."""
        with contextlib.suppress(ProcessLookupError, PermissionError):
            if process.poll() is None:
                os.killpg(process.pid, signal.SIGKILL)
        process.wait()
        for stream in (process.stdout, process.stderr):
            if stream:
                stream.close()
        with self.lock:
            self.running.discard(process)

    def end_all(self) -> None:
        with self.lock:
            self.has_ended = True
            running = list(self.running)
        for process in running:
            with contextlib.suppress(ProcessLookupError, PermissionError):
                os.killpg(process.pid, signal.SIGKILL)
