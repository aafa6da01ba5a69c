"""The server: on 127.0.0.1 alone, behind a secret in each address, and with files of the desk's own alone."""
from __future__ import annotations

import hmac
import json
import os
import secrets
import socket
import threading
import time
from http.server import BaseHTTPRequestHandler, ThreadingHTTPServer
from typing import Any

from .desk import Bad, Desk
from .jobs import OutOfTime, Refused, Stopped, Waiter

PAGE = os.path.join(os.path.dirname(os.path.abspath(__file__)), "page")
KINDS = {".html": "text/html", ".css": "text/css", ".js": "text/javascript", ".svg": "image/svg+xml"}
POLICY = ("default-src 'none'; script-src 'self'; style-src 'self'; img-src 'self'; connect-src 'self'; form-action 'none'; "
          "base-uri 'none'; frame-ancestors 'none'")
HEADERS = {"Content-Security-Policy": POLICY, "X-Content-Type-Options": "nosniff", "Referrer-Policy": "no-referrer", "Cache-Control": "no-store",
           "Cross-Origin-Resource-Policy": "same-origin", "Cross-Origin-Opener-Policy": "same-origin", "X-Frame-Options": "DENY"}
# Bytes of a request, seconds in which it has to arrive, and connections at once.
MOST, PATIENCE, CONNECTIONS = 1 << 20, 10, 500
ANSWERS, STREAMS = ("open", "position", "keep", "typed"), ("think", "review")


class Server(ThreadingHTTPServer):
    daemon_threads, request_queue_size, allow_reuse_address = True, 128, False

    def __init__(self, desk: Desk, port: int = 0) -> None:
        self.desk, self.secret = desk, secrets.token_hex(16)
        self.files = {name: read(name) for name in os.listdir(PAGE) if os.path.splitext(name)[1] in KINDS}
        self.lock, self.arriving, self.count = threading.Lock(), dict[socket.socket, float](), 0
        super().__init__(("127.0.0.1", port), Handler)
        self.host = f"127.0.0.1:{self.server_address[1]}"
        self.address = f"http://{self.host}/{self.secret}/"

    def process_request(self, request: Any, client_address: Any) -> None:
        with self.lock:
            is_full = self.count >= CONNECTIONS
            self.count += not is_full
            if not is_full:
                self.arriving[request] = time.monotonic() + PATIENCE
        if is_full:
            self.shutdown_request(request)
        else:
            super().process_request(request, client_address)

    def arrived(self, request: socket.socket) -> None:
        with self.lock:
            self.arriving.pop(request, None)

    def process_request_thread(self, request: Any, client_address: Any) -> None:
        try:
            super().process_request_thread(request, client_address)
        finally:
            with self.lock:
                self.arriving.pop(request, None)
                self.count -= 1

    def service_actions(self) -> None:
        """Closes the connections whose request didn't arrive in time."""
        now = time.monotonic()
        with self.lock:
            late = [it for it, end in self.arriving.items() if end < now]
            for it in late:
                self.arriving.pop(it)
        for it in late:
            try:
                it.shutdown(socket.SHUT_RDWR)
            except OSError:
                pass

    def handle_error(self, request: Any, client_address: Any) -> None:
        """A connection that breaks off is nobody's fault."""


def read(name: str) -> bytes:
    with open(os.path.join(PAGE, name), "rb") as file:
        return file.read()


class Handler(BaseHTTPRequestHandler):
    server: Server
    server_version, sys_version = "desk", ""

    def log_message(self, format: str, *args: Any) -> None:
        """Nothing is logged: an address has the secret."""

    def send_error(self, code: int, message: str | None = None, explain: str | None = None) -> None:
        self.reply(code, b"", "text/plain")

    def reply(self, status: int, body: bytes, kind: str) -> None:
        self.send_response(status)
        for name, value in {**HEADERS, "Content-Type": f"{kind}; charset=utf-8", "Content-Length": str(len(body))}.items():
            self.send_header(name, value)
        self.end_headers()
        if self.command != "HEAD":
            self.wfile.write(body)

    def told(self, name: str) -> list[str]:
        """Each value of a header."""
        return [str(it) for it in self.headers.get_all(name) or ()]

    def route(self, is_post: bool) -> str | None:
        """What is asked for, or None if the request is refused."""
        hosts, origins = self.told("Host"), self.told("Origin")
        own = [f"http://{self.server.host}"]
        parts = self.path.split("/")
        is_own = len(parts) == 3 and not parts[0] and hmac.compare_digest(parts[1].encode(errors="replace"), self.server.secret.encode())
        if hosts != [self.server.host] or origins not in ([own] if is_post else [own, []]) or not is_own:
            self.reply(403, b"", "text/plain")
            return None
        return parts[2]

    def do_GET(self) -> None:
        name = self.route(False)
        self.server.arrived(self.connection)
        if name is None:
            return
        name = name or "index.html"
        if name not in self.server.files:
            self.reply(404, b"", "text/plain")
        else:
            self.reply(200, self.server.files[name], KINDS[os.path.splitext(name)[1]])

    def do_POST(self) -> None:
        name = self.route(True)
        if name is None:
            return
        if name not in ANSWERS + STREAMS:
            return self.reply(404, b"", "text/plain")
        told, lengths = self.headers.get_content_type(), self.told("Content-Length")
        if told != "application/json" or len(lengths) != 1 or not lengths[0].isdecimal() or "Transfer-Encoding" in self.headers:
            return self.reply(400, b"", "text/plain")
        if len(lengths[0]) > 9 or int(lengths[0]) > MOST:
            return self.reply(413, b"", "text/plain")
        body = self.rfile.read(int(lengths[0]))
        self.server.arrived(self.connection)
        if len(body) < int(lengths[0]):
            return self.reply(408, b"", "text/plain")
        try:
            asked = json.loads(body.decode())
        except (ValueError, RecursionError):
            asked = None
        if not isinstance(asked, dict):
            return self.reply(400, b"", "text/plain")
        self.answer(name, asked)

    def answer(self, name: str, asked: dict[str, Any]) -> None:
        waiter = Waiter(self.connection)
        try:
            if name in STREAMS:
                return self.stream(name, asked, waiter)
            told = json.dumps(getattr(self.server.desk, name)(asked, waiter))
        except (Stopped, OSError):
            return
        except Exception as why:  # Each fault of a question has an answer of its own.
            return self.reply(422, json.dumps(fault(why)).encode(), "application/json")
        self.reply(200, told.encode(), "application/json")

    def stream(self, name: str, asked: dict[str, Any], waiter: Waiter) -> None:
        """Lines of JSON, each as soon as it is known, up to the end of the connection."""
        self.send_response(200)
        for header, value in {**HEADERS, "Content-Type": "application/x-ndjson; charset=utf-8"}.items():
            self.send_header(header, value)
        self.end_headers()

        def say(line: dict[str, Any]) -> None:
            try:
                self.wfile.write(json.dumps(line).encode() + b"\n")
                self.wfile.flush()
            except OSError:
                raise Stopped from None
        try:
            getattr(self.server.desk, name)(asked, waiter, say)
        except Stopped:
            return
        except Exception as why:  # As above.
            try:
                say(fault(why))
            except Stopped:
                return


def fault(why: Exception) -> dict[str, Any]:
    """What the page learns of a question that has no answer."""
    if isinstance(why, Refused):
        field = next((it for it in ("north", "east", "south", "west", "draw", "seed") if why.line.startswith(f"--{it}")), "")
        return {"refused": why.line, "field": field or ("where" if "fit" in why.line else "text"), "by": "alphamu"}
    if isinstance(why, OutOfTime):
        return {"refused": "there was no answer in time", "field": "", "by": "the desk"}
    line = str(why) if isinstance(why, (Bad, ValueError)) else f"I made a mistake: {type(why).__name__}"
    return {"refused": line, "field": "text", "by": "the desk"}
