"""desk [FILE] [--board B] [--at CARD] [--line CARDS] [--draw N] [--seed N] [--SEAT CONDITION] [--port P] [--no-browser] [--study PROGRAM]

Starts the desk and opens it in the browser. It ends by Ctrl-C, and all that it has started with it."""
from __future__ import annotations

import argparse
import os
import signal
import subprocess
import sys
import tempfile
import threading
import urllib.parse
import webbrowser
from types import FrameType

from .desk import MOST_TEXT, Desk, read
from .jobs import Jobs
from .server import Server

SEATS = ("north", "east", "south", "west")


def study() -> str:
    """The program that the desk came with: in a repository the proved one if it is there and current, or else the launcher, which has an
    unproved one compiled; in a package its launcher."""
    top = os.path.dirname(os.path.dirname(os.path.abspath(__file__)))
    state = os.path.join(top, "checks", "program_state")
    if os.access(state, os.X_OK):
        is_proved = subprocess.run([state, "alphamu_study"], check=False).returncode == 0
        return os.path.join(top, "crates/alphamu_study/out/alphamu_study") if is_proved else os.path.join(top, "study")
    return os.path.join(top, "..", "..", "bin", "alphamu_study")


def words() -> argparse.Namespace:
    parser = argparse.ArgumentParser(prog="desk", description="A board on the screen, with what alphamu says of each card.")
    parser.add_argument("file", nargs="?", help="a PBN file or a .lin file")
    parser.add_argument("--board", help="the board to open, by its number in the file")
    parser.add_argument("--at", type=int, default=None, metavar="CARD", help="the moment before this card of the play")
    parser.add_argument("--line", default="", metavar="CARDS", help="cards that are played from there, with commas between them")
    parser.add_argument("--draw", type=int, default=0, help="how many layouts are drawn; by itself 20")
    parser.add_argument("--seed", default="", help="another number draws other layouts")
    for seat in SEATS:
        parser.add_argument(f"--{seat}", default="", metavar="CONDITION", help=f"what {seat.capitalize()} holds")
    parser.add_argument("--port", type=int, default=0, help="a port of 127.0.0.1; by itself the desk takes a free one")
    parser.add_argument("--no-browser", action="store_true", help="print the address alone")
    parser.add_argument("--study", metavar="PROGRAM", help="the program to ask in place of the alphamu_study beside the desk")
    return parser.parse_args()


def ended(number: int, frame: FrameType | None) -> None:
    raise KeyboardInterrupt


def address(server: Server, desk: Desk, given: argparse.Namespace) -> str:
    """The page's address with the file that is opened in its fragment, which no request carries."""
    if not given.file:
        return server.address
    with open(given.file, "rb") as file:
        text = file.read(MOST_TEXT + 1).decode(errors="replace")
    told = {"file": desk.take(read(os.path.basename(given.file), text)), "board": given.board or "", "at": "" if given.at is None else str(max(0, given.at - 1)), "line": given.line,
            "draw": given.draw, "seed": given.seed, **{seat: getattr(given, seat) for seat in SEATS}}
    return server.address + "#" + urllib.parse.urlencode({name: it for name, it in told.items() if it})


def main() -> int:
    given = words()
    with tempfile.TemporaryDirectory(prefix="alphamu_desk.") as folder:
        jobs = Jobs([given.study or study()], folder)
        desk = Desk(jobs)
        try:
            server = Server(desk, given.port)
            page = address(server, desk, given)
        except (OSError, OverflowError, ValueError) as why:
            print(f"desk: {why}", file=sys.stderr)
            return 1
        for it in (signal.SIGTERM, signal.SIGHUP, signal.SIGINT):
            signal.signal(it, ended)
        try:
            threading.Thread(target=jobs.warm_up, daemon=True).start()
            print(f"desk: {page}\ndesk: Ctrl-C ends it", flush=True)
            if not given.no_browser:
                threading.Thread(target=webbrowser.open, args=(page,), daemon=True).start()
            server.serve_forever(0.25)
        except KeyboardInterrupt:
            pass
        finally:
            for it in (signal.SIGTERM, signal.SIGHUP, signal.SIGINT):
                signal.signal(it, signal.SIG_IGN)
            jobs.end_all()
            server.server_close()
    return 0


if __name__ == "__main__":
    sys.exit(main())
