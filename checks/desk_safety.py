#!/usr/bin/env python3
"""desk_safety.py [--count N] [--seed S]

Starts ./desk and sends it N hostile requests: without the secret or with one that is nearly right, for other hosts and from other
origins, for files outside, with bodies that are huge, cut off or no JSON, with values of the wrong kind, with markup for names, and lines that
are no requests at all; HALF_OPEN connections that never finish stay open meanwhile. Each has to be refused: with a status from 400 on or
no answer, and without a byte of the page or of a file. A friend asks for the page and for a position all the time, and may never wait
longer than LONGEST seconds. The server may listen on 127.0.0.1 alone; the half-open connections have to be closed in the end, and after
Ctrl-C no process may be left."""
import argparse
import http.client
import json
import os
import random
import signal
import socket
import subprocess
import sys
import tempfile
import threading
import time
import urllib.parse

sys.dont_write_bytecode = True
import desk_boards
from cases import TOP

HALF_OPEN, LONGEST, PATIENCE = 60, 1.0, 10
BOARD = {"file": "1", "game": 1, "at": 4}
WEIRD = ["", "x", -1, 1e99, None, [], {}, True, "\0", "../../etc/passwd", "<img src=x onerror=alert(1)>", 2**80, ["SA", 7], "é" * 400, {"a": []}]


class Desk:
    """The desk at work, and what a request to it needs."""

    def __init__(self, words, program=os.path.join(TOP, "desk")):
        self.run = subprocess.Popen([program, "--no-browser", *words], stdout=subprocess.PIPE, text=True, start_new_session=True)
        self.address = self.run.stdout.readline().split()[1]
        told = urllib.parse.urlsplit(self.address)
        self.port, self.secret, self.host = told.port, told.path.strip("/"), told.netloc

    def ask(self, name, told=None):
        """What a friend gets: the status and the text."""
        connection = http.client.HTTPConnection("127.0.0.1", self.port, timeout=20)
        headers = {"Origin": f"http://{self.host}", "Content-Type": "application/json"} if told is not None else {}
        connection.request("GET" if told is None else "POST", f"/{self.secret}/{name}", None if told is None else json.dumps(told), headers)
        answer = connection.getresponse()
        status, text = answer.status, answer.read().decode()
        connection.close()
        return status, text

    def end(self):
        """Ends it as Ctrl-C does, and says what is wrong with how it ends."""
        self.run.send_signal(signal.SIGINT)
        try:
            status = self.run.wait(10)
        except subprocess.TimeoutExpired:
            self.run.kill()
            return ["Ctrl-C doesn't end it"]
        return [f"after Ctrl-C the status is {status}"] * (status != 0)


def request(method, path, headers, body=b""):
    head = [f"{method} {path} HTTP/1.1", *(f"{name}: {it}" for name, it in headers)]
    return "\r\n".join([*head, "", ""]).encode(errors="surrogateescape") + body


def post(desk, path, body, *, host=None, origin="own", kind="application/json", length=None, more=()):
    headers = [("Host", host or desk.host), ("Content-Type", kind), *more]
    headers += [] if origin is None else [("Origin", f"http://{desk.host}" if origin == "own" else origin)]
    headers += [("Content-Length", len(body) if length is None else length)]
    return request("POST", path, headers, body)


def strange_secrets(desk, chance):
    """A secret that is nearly right."""
    it = desk.secret
    return chance.choice(["", it[:-1], it + "0", it[::-1], it.upper() + "A", "0" * 32, it[:16], "%00" + it, it.replace(it[0], "%" + f"{ord(it[0]):x}"), "é", "."])


def hostile(desk, chance):
    """A request that has to be refused."""
    own, name = f"/{desk.secret}", chance.choice(["open", "position", "think", "keep", "review", "typed", "", "main.js"])
    good = json.dumps({**BOARD, "text": "x", "kind": "pbn", "games": [1]}).encode()
    hosts = ["localhost", f"localhost:{desk.port}", "evil.example", f"evil.example:{desk.port}", "127.0.0.1", f"127.0.0.1:{desk.port + 1}", f"[::1]:{desk.port}", "", f"127.1:{desk.port}", f"{desk.host}."]
    origins = [None, "null", "http://evil.example", f"https://{desk.host}", "http://localhost", f"http://localhost:{desk.port}", "", f"http://{desk.host}.evil.example"]
    outside = ["../../etc/passwd", "..%2f..%2fetc%2fpasswd", "../desk.py", "page/../../server.py", "/etc/passwd", "index.html/", "..\\server.py", "%2e%2e/README.md", ".git/config", "server.py", "./index.html", "index.html%00.js", "__init__.py", "?", "index.html?x=1", "#"]
    wrong = {**BOARD, chance.choice(["file", "game", "at", "line", "draw", "seed", "west", "limit", "kind", "games", "text", "name"]): chance.choice(WEIRD)}
    sure = {"position": "file", "keep": "kind", "typed": "contract", "open": "text"}
    asked = chance.choice(list(sure))
    if asked == "open":
        del wrong["file"]
    kinds = {
        "no secret": lambda: request("GET", f"/{strange_secrets(desk, chance)}/{chance.choice(['', 'main.js', 'index.html', 'desk.css'])}", [("Host", desk.host)]),
        "no secret, post": lambda: post(desk, f"/{strange_secrets(desk, chance)}/{name}", good),
        "other host": lambda: request("GET", f"{own}/", [("Host", chance.choice(hosts))]),
        "no host": lambda: request("GET", f"{own}/", chance.choice([[], [("Host", desk.host), ("Host", desk.host)], [("Host", desk.host), ("Host", "evil.example")]])),
        "other host, post": lambda: post(desk, f"{own}/position", good, host=chance.choice(hosts) or "x"),
        "other origin": lambda: post(desk, f"{own}/{name}", good, origin=chance.choice(origins)),
        "other origin, get": lambda: request("GET", f"{own}/", [("Host", desk.host), ("Origin", chance.choice(origins[1:]))]),
        "outside": lambda: request("GET", f"{own}/{chance.choice(outside)}", [("Host", desk.host)]),
        "whole address": lambda: request("GET", f"http://{desk.host}{own}/", [("Host", desk.host)]),
        "huge body": lambda: post(desk, f"{own}/open", b"x" * chance.choice([0, 100, 70_000]), length=chance.choice([1 << 20 | 1, 10**9, 10**30])),
        "odd length": lambda: post(desk, f"{own}/open", good, length=chance.choice(["-1", "0x10", "", "1e3", "5, 5", "+7"])),
        "two lengths": lambda: post(desk, f"{own}/open", good, more=[("Content-Length", "3")]),
        "in parts": lambda: post(desk, f"{own}/open", b"5\r\n{}\r\n0\r\n\r\n", more=[("Transfer-Encoding", "chunked")]),
        "other kind": lambda: post(desk, f"{own}/position", good, kind=chance.choice(["text/plain", "application/x-www-form-urlencoded", "multipart/form-data", ""])),
        "no JSON": lambda: post(desk, f"{own}/{asked}", chance.choice([b"", b"{", b"[" * 60_000, bytes(chance.randrange(256) for _ in range(200)), b"[1]", b'"x"', b"7", b"null", b"NaN", b'{"file":']), length=None),
        "wrong value": lambda: post(desk, f"{own}/{asked}", json.dumps({**wrong, sure[asked]: chance.choice([it for it in WEIRD if it != "x"])}).encode()),
        "markup": lambda: post(desk, f"{own}/open", json.dumps({"name": "<script>alert(1)</script>", "text": "<b>no board</b>" * chance.randrange(1, 9)}).encode()),
        "other method": lambda: request(chance.choice(["PUT", "DELETE", "OPTIONS", "TRACE", "CONNECT", "PATCH", "HEAD", "get"]), f"{own}/", [("Host", desk.host)]),
        "no request": lambda: chance.choice([b"\0" * 50, b"\r\n\r\n", b"GET\r\n\r\n", b"GET / HTTP/9.9\r\n\r\n", b"\x16\x03\x01\x02", b"GET /" + b"a" * 70_000 + b" HTTP/1.1\r\n\r\n", b"GET / HTTP/1.1\r\n" + b"X: y\r\n" * 200 + b"\r\n"]),
    }
    kind = chance.choice(list(kinds))
    return kind, kinds[kind]()


def answer_to(desk, text):
    """All that comes back, up to the end of the connection."""
    with socket.create_connection(("127.0.0.1", desk.port), timeout=20) as to:
        got = b""
        try:
            to.sendall(text)
            to.shutdown(socket.SHUT_WR)
            while part := to.recv(1 << 16):
                got += part
        except TimeoutError:
            return b"HTTP/1.0 0 none within the time"
        except OSError:
            pass
        return got


def fault_of(got):
    """What is wrong with the answer to a hostile request."""
    if not got:
        return None
    head, _, body = got.partition(b"\r\n\r\n")
    words = head.split()
    status = int(words[1]) if len(words) > 1 and words[0].startswith(b"HTTP/") and words[1].isdigit() else 0
    if head.startswith(b"HTTP/") and not 400 <= status < 600:
        return f"status {status}"
    if b"<html" in got or b"root:" in got or b"import" in body or b"Traceback" in got or len(body) > 2000:
        return f"it tells {body[:60]!r}"
    return None


class Friend(threading.Thread):
    """Asks all the time, and keeps how long the slowest answer took and what was wrong."""

    def __init__(self, desk):
        super().__init__(daemon=True)
        self.desk, self.slowest, self.count, self.wrong, self.is_done = desk, 0.0, 0, [], False

    def run(self):
        while not self.is_done:
            for name, told in (("", None), ("position", BOARD)):
                begun = time.monotonic()
                try:
                    status, text = self.desk.ask(name, told)
                    self.wrong += [f"a friend gets {status}: {text[:80]}"] * (status != 200)
                except OSError as why:
                    self.wrong.append(f"a friend gets no answer: {why}")
                self.slowest = max(self.slowest, time.monotonic() - begun)
                self.count += 1
            time.sleep(0.02)


def half_open(desk):
    """Connections that never finish their request."""
    starts = [b"", b"GET /", b"POST /" + desk.secret.encode() + b"/open HTTP/1.1\r\nHost: ", post(desk, f"/{desk.secret}/open", b"{", length=5000)]
    opened = []
    for number in range(HALF_OPEN):
        to = socket.create_connection(("127.0.0.1", desk.port), timeout=20)
        to.sendall(starts[number % len(starts)])
        opened.append(to)
    return opened


def listens_elsewhere(desk):
    """Whether it takes a connection at another address of this machine."""
    for host in ("127.0.0.2", "::1", socket.gethostname()):
        try:
            with socket.create_connection((host, desk.port), timeout=1) as to:
                if to.getpeername()[0] != "127.0.0.1":
                    return [f"it listens on {host}"]
        except OSError:
            pass
    return []


def judge(desk, given):
    """What is wrong, and the friend."""
    chance, wrong, opened = random.Random(given.seed), listens_elsewhere(desk), half_open(desk)
    begun, friend = time.monotonic(), Friend(desk)
    friend.start()
    for _ in range(given.count):
        kind, text = hostile(desk, chance)
        fault = fault_of(answer_to(desk, text))
        if fault:
            wrong.append(f"{kind}: {fault}: {text[:150]!r}")
    time.sleep(max(0.0, begun + PATIENCE + 1 - time.monotonic()))
    friend.is_done = True
    friend.join()
    for to in opened:
        to.settimeout(2)
        try:
            while to.recv(1 << 16):
                pass
        except ConnectionError:
            pass
        except OSError:
            wrong.append("a half-open connection stays open")
        to.close()
    wrong += friend.wrong[:5] + [f"a friend waited {friend.slowest:.2f} s"] * (friend.slowest > LONGEST)
    return wrong, friend


def main():
    parser = argparse.ArgumentParser(description="Sends the desk hostile requests.", allow_abbrev=False)
    parser.add_argument("--count", type=int, default=2000)
    parser.add_argument("--seed", type=int, default=1)
    given = parser.parse_args()
    with tempfile.TemporaryDirectory() as room:
        path = os.path.join(room, "club.pbn")
        with open(path, "w", encoding="utf-8") as file:
            file.write(desk_boards.club())
        desk = Desk([path])
        try:
            wrong, friend = judge(desk, given)
        finally:
            ended = desk.end()
    wrong += ended
    for line in wrong[:20]:
        print(line)
    print(f"desk safety: {given.count} hostile requests, {friend.count} friendly ones, the slowest after {friend.slowest:.2f} s, {len(wrong)} wrong")
    return 0 if not wrong else 1


if __name__ == "__main__":
    sys.exit(main())
