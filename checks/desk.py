#!/usr/bin/env python3
"""desk.py [--pictures FOLDER]

Starts ./desk with the club's file of checks/desk_boards.py, and uses it as a person does.

By its own answers: LIN boards of a `.lin` file are opened, and what the desk reads must be what they mean; each is saved as PBN, which
alphamu has to take. Of the slam of examples/slam it has to say what decides it.

In a headless Chromium, at both WIDTHS: it opens a board, steps by keys, and at MOMENTS of the play the bars must say what `cards --form
json` says of the same draw. It stops thinking, draws again, tries other cards of both sides, reviews a board, and saves the review and the
board. A name with markup must be shown as text. A window that goes elsewhere, and Ctrl-C, must leave no process. Light and dark, each text
must have a contrast of 4.5 and 14 pixels, nothing may be wider than the window or the paper, and Tab has to come to every control. The page may load nothing but the
desk's own files. With --pictures it leaves the pictures of docs/pictures in a folder.

The unit tests of the desk are run first, and mypy judges its types if it is there (Debian: `apt-get install mypy`).

If there is no Chromium (Debian: `apt-get install chromium`), or it can't be driven here, it says so, leaves that part out, and the
status is 0 if the rest is right."""
import argparse
import base64
import json
import os
import re
import shutil
import signal
import subprocess
import sys
import tempfile
import time
import urllib.parse
from concurrent.futures import ThreadPoolExecutor

sys.dont_write_bytecode = True
import desk_boards
import look
from cases import PROGRAM, STUDY, TOP, is_ready
from desk_safety import Desk

LIN, WIDTHS, PATIENCE = 200, (390, 1280), 60
# Boards of the club's file and numbers of cards played, at turns of declarer's side.
MOMENTS = ((2, 28), (10, 26), (6, 28))
# A board and a moment that take long to think about, a board that is reviewed, a moment of which pictures are taken, and a name.
LONG, REVIEWED, PICTURED, MARKUP = (4, 1), 8, (5, 8), "<img src=x onerror=\"document.title='bad'\"><b>club</b>"
BARS = """Object.fromEntries([...document.querySelectorAll('#bars .bar[data-play]')].map(it => [it.dataset.play, [it.querySelector('.fig').textContent, it.querySelector('.sam').textContent]]))"""
SMALL = """(() => {
  const found = new Set(), walker = document.createTreeWalker(document.body, NodeFilter.SHOW_TEXT);
  for (let text; (text = walker.nextNode());) {
    const it = text.parentElement;
    if (text.data.trim() && it.checkVisibility() && parseFloat(getComputedStyle(it).fontSize) < 14) found.add('small: ' + text.data.trim().slice(0, 20));
  }
  return [...found];
})()"""
CONTROLS = "[...document.querySelectorAll('a[href],button:not(:disabled),summary,input,select,textarea')].filter(it => it.checkVisibility())"


class Wrong(Exception):
    """Something didn't come in time."""


class Page(look.Browser):
    """A window on the desk."""

    def until(self, expression, seconds=PATIENCE):
        """Waits until an expression is true, and returns its value."""
        end = time.monotonic() + seconds
        while not (found := self.value(expression)):
            if time.monotonic() > end:
                raise Wrong(f"it never came to {expression[:80]}; the page says {self.value('document.body.innerText')[:300]!r}")
            time.sleep(0.03)
        return found

    def click(self, selector):
        self.until(f"Boolean(document.querySelector({json.dumps(selector)}))")
        self.value(f"document.querySelector({json.dumps(selector)}).click()")

    def settled(self, where=""):
        """Waits for the end of the thinking about a moment, whose place in the play has to contain a text."""
        self.until(f"document.getElementById('where').textContent.includes({json.dumps(where)}) && /^(Settled|Not settled)/.test(document.getElementById('think').textContent)")


def children(desk):
    """The processes that the desk has started and that are still there."""
    found = []
    for it in filter(str.isdigit, os.listdir("/proc")):
        try:
            with open(f"/proc/{it}/stat", encoding="utf-8", errors="replace") as file:
                state, parent = file.read().rpartition(")")[2].split()[:2]
        except OSError:
            continue
        found += [it] * (int(parent) == desk.run.pid and state != "Z")
    return found


def faults_of_leaving(desk, what):
    """Whether a process is still there two seconds after somebody has left."""
    end = time.monotonic() + 2
    while children(desk):
        if time.monotonic() > end:
            return [f"{what} leaves processes: {children(desk)}"]
        time.sleep(0.05)
    return []


def said_of(room, game, number, line=()):
    """The bars that `cards --form json` makes of a moment: the bounds and the simulation by card."""
    deal = os.path.join(room, f"{game}-{number}-{''.join(line)}.pbn")
    with open(deal, "w", encoding="utf-8") as file:
        file.write(desk_boards.moment(game, number, line))
    words = [STUDY, "--job", "cards", "--deal", deal, "--draw", "20", "--form", "json"]
    told = json.loads(subprocess.run(words, capture_output=True, check=True).stdout)
    return {it["card"]: [str(it["least"]) if it["final"] else f"{it['least']}–{it['most']}", str(it["sampled"])] for it in told["cards"]}, told["named"]


def faults_of_lin(desk, room):
    """What is wrong with the boards of a `.lin` file."""
    texts, meant = zip(*(desk_boards.lin_board(seed) for seed in range(LIN)))
    status, answer = desk.ask("open", {"name": "evening.lin", "text": "\n".join(texts)})
    told = json.loads(answer)
    if status != 200 or len(told["boards"]) != LIN:
        return [f"lin: {status} {answer[:200]}"]
    with open(os.path.join(room, "none.lay"), "w", encoding="utf-8"):
        pass

    def judge(number):
        board, want = told["boards"][number], meant[number]
        _, saved = desk.ask("keep", {"file": told["file"], "game": number + 1, "at": len(want["play"]), "kind": "pbn"})
        text = json.loads(saved)["text"]
        deal = os.path.join(room, f"lin{number}.pbn")
        with open(deal, "w", encoding="utf-8") as file:
            file.write(text)
        run = subprocess.run([STUDY, "--job", "cards", "--deal", deal, "--layouts", os.path.join(room, "none.lay")], capture_output=True, text=True, check=False)
        wrong = [] if run.returncode in (5, 6) else [f"lin {number}: alphamu says {run.stderr.strip()}"]
        got = [board["contract"], board["declarer"], board["result"], board["board"], board["play"], board["tags"].get("Vulnerable"), board["tags"].get("Dealer"),
               *(board["tags"].get(it, "") for it in ("North", "East", "South", "West"))]
        want_of = [want["contract"], want["declarer"], want["result"], want["board"], want["play"], want["vulnerable"], want["dealer"], *(want["names"][it] for it in "NESW")]
        wrong += [f"lin {number}: {got} in place of {want_of}"] * (got != want_of)
        if desk_boards.hands_in(text) != want["hands"]:
            wrong.append(f"lin {number}: other hands")
        return wrong
    with ThreadPoolExecutor(os.cpu_count()) as pool:
        return [line for lines in pool.map(judge, range(LIN)) for line in lines]


def faults_of_fact(desk):
    """Whether the desk tells what decides the slam of examples/slam: who holds the king of spades."""
    with open(os.path.join(TOP, "examples", "slam", "deal.pbn"), encoding="utf-8") as file:
        opened = json.loads(desk.ask("open", {"name": "slam", "text": file.read()})[1])
    _, told = desk.ask("think", {"file": opened["file"], "game": 1, "at": opened["boards"][0]["start"], "limit": 60})
    return [] if json.dumps({"fact": "East holds \u2660K"}) in told.splitlines() else [f"the fact of the slam isn't there: {told[-300:]}"]


def open_at(page, desk, game, at, width, dark=False):
    page.show(width, dark)
    page.open("about:blank")
    page.open(desk.address.split("#")[0] + "#" + urllib.parse.urlencode({"file": 1, "game": game, "at": at}))


def faults_of_bars(page, desk, room, width):
    """Whether the bars say what the program says, at each moment."""
    for game, at in MOMENTS:
        open_at(page, desk, game, at, width)
        page.settled(f"Card {at + 1}")
        bars, (want, named) = page.value(BARS), said_of(room, game, at)
        groups = page.value("[...document.querySelectorAll('#bars .bar.named')].map(it => it.dataset.play)")
        for card, told in bars.items():
            if want[card] != told:
                yield f"{width}: board {game}, card {at + 1}: the bar of {card} says {told}, and the program {want[card]}"
        if not bars or len(groups) != 1 or want[groups[0]][0] != want[named][0]:
            yield f"{width}: board {game}, card {at + 1}: {groups} is named, and not {named}"


def faults_of_steps(page, desk, width):
    """Whether keys step through the play."""
    open_at(page, desk, 2, 10, width)
    for keys, where in ((("ArrowRight", 39), "Card 12"), (("ArrowLeft", 37), "Card 11"), (("Home", 36), "Card 1 "), (("End", 35), "End of the play")):
        page.until("document.getElementById('where').textContent.length > 3")
        page.press(*keys)
        page.until(f"document.getElementById('where').textContent.includes({json.dumps(where)})", 10)
    page.click("[data-go='4']")
    page.until("document.getElementById('where').textContent.includes('Card 5')", 10)


def faults_of_stopping(page, desk, width):
    """A question that is stopped, one that is left, and a window that goes elsewhere."""
    open_at(page, desk, *LONG, width)
    page.until("document.querySelectorAll('#bars .bar[data-play]').length > 1")
    page.press("t", 84)
    page.until("document.getElementById('think').textContent.startsWith('Stopped')", 5)
    yield from faults_of_leaving(desk, f"{width}: stopping")
    page.press("t", 84)
    page.until("document.getElementById('think').textContent.startsWith('Thinking')", 5)
    page.press("ArrowRight", 39)
    page.until("document.getElementById('where').textContent.includes('Card 3')", 5)
    page.until("document.querySelectorAll('#bars button').length > 1")
    yield from faults_of_leaving(desk, f"{width}: a step")
    open_at(page, desk, *LONG, width)
    page.until("document.querySelectorAll('#bars .bar[data-play]').length > 1")
    page.open("about:blank")
    yield from faults_of_leaving(desk, f"{width}: a closed window")


def faults_of_layouts(page, desk, width):
    """Draws again, under a condition, and with one that isn't understood."""
    open_at(page, desk, 10, 26, width)
    page.settled()
    page.press("l", 76)
    page.click("[data-do='again']")
    page.until("/2 draws/.test(document.getElementById('tally').textContent)")
    page.click("#laylist button")
    page.until("!document.querySelector('.hand.W .backs')", 5)
    field = page.until("(document.querySelector('#cond .field input[name]') || {}).id")
    for text, seen in (("5+ heart", "isn't understood"), ("30+ hcp", "0 layouts fit")):
        page.value(f"document.getElementById('{field}').value = {json.dumps(text)}")
        page.click("#cond .main")
        page.until(f"document.getElementById('fault').textContent.includes({json.dumps(seen)}) && document.getElementById('{field}').getAttribute('aria-invalid') === 'true'", 20)
    page.value(f"document.getElementById('{field}').value = '0-13 hcp'")
    page.click("#cond .main")
    page.until("document.getElementById('drawn').textContent.includes('these conditions')", 20)
    page.settled()


def faults_of_what_if(page, desk, room, width):
    """Another card of declarer's side, one of a defender, and back."""
    game, at = MOMENTS[1]
    open_at(page, desk, game, at, width)
    page.settled()
    line = []
    for _ in range(4):
        other = page.until("(() => { const all = [...document.querySelectorAll('#bars [data-play]')]; return (all.find(it => !/played$/.test(it.ariaLabel) && !it.classList.contains('was')) || all[0] || {dataset: {}}).dataset.play; })()")
        line.append(other)
        page.click(f"#bars [data-play='{other}']")
        page.until(f"document.querySelectorAll('#whatbar .k').length === {len(line)} && (/^(Settled|Not)/.test(document.getElementById('think').textContent) || document.querySelector('.replies') !== null)")
        bars = page.value(BARS)
        if bars:
            want, _ = said_of(room, game, at, line)
            yield from (f"{width}: what if {line}: the bar of {card} says {told}, and the program {want[card]}" for card, told in bars.items() if want[card] != told)
    page.press("Escape", 27)
    page.until(f"document.getElementById('where').textContent.includes('Card {at + 1}')", 10)


def faults_of_keeping(page, desk, folder, width):
    """Reviews a board, and saves the review and the board."""
    page.ask("Page.setDownloadBehavior", behavior="allow", downloadPath=folder)
    open_at(page, desk, REVIEWED, 40, width)
    page.until("document.querySelector('[data-do=review]') !== null || document.querySelector('[data-do=csv]') !== null")
    page.press("r", 82)
    page.click("[data-do='csv']")
    wait_for(os.path.join(folder, "review.csv"))
    with open(os.path.join(folder, "review.csv"), encoding="utf-8") as file:
        head, *lines = file.read().splitlines()
    if not head.startswith("game,board,number,") or not lines or any(not it.startswith(f"{REVIEWED},{REVIEWED},") for it in lines):
        yield f"{width}: the CSV has {head} and {lines[:1]}"
    marked = page.value("document.querySelectorAll('.steplist button').length")
    if marked != len(lines):
        yield f"{width}: {marked} decisions are shown, and {len(lines)} saved"
    page.press("k", 75)
    page.click("[data-keep='pbn']")
    wait_for(os.path.join(folder, "board.pbn"))
    for name in ("review.csv", "board.pbn"):
        os.remove(os.path.join(folder, name))


def wait_for(path):
    end = time.monotonic() + PATIENCE
    while not os.path.exists(path):
        if time.monotonic() > end:
            raise Wrong(f"{os.path.basename(path)} isn't saved")
        time.sleep(0.05)


def faults_of_markup(page, desk, width):
    """A name with markup is text."""
    text = desk_boards.club().split("\n\n")[1].replace("Club evening", MARKUP.replace('"', '\\"'))
    page.show(width)
    page.open("about:blank")
    page.open(desk.address.split("#")[0])
    page.until("document.getElementById('paste') !== null")
    page.value(f"document.getElementById('paste').value = {json.dumps(text)}")
    page.click("#pasted [type=submit]")
    page.until(f"document.getElementById('pick').textContent.includes({json.dumps(MARKUP)})")
    if page.value("document.querySelectorAll('img').length || document.title === 'bad'"):
        yield f"{width}: markup of a name is taken for markup"


def faults_of_looks(page, desk, width):
    """Contrast, sizes, widths, Tab, and what is loaded, light and dark."""
    for dark in (False, True):
        open_at(page, desk, *MOMENTS[1], width, dark)
        page.settled()
        page.until("document.getElementById('words').textContent.length > 10 || document.getElementById('verdict').textContent.includes('No card')", 10)
        yield from (f"{width}{' dark' * dark}: {it}" for it in [*page.look(), *page.value(SMALL)] if not it.startswith("cut off"))
        page.press("l", 76)
        page.until("document.querySelectorAll('#laylist button').length > 1")
        yield from (f"{width}{' dark' * dark} with layouts: {it}" for it in [*page.look(), *page.value(SMALL)] if not it.startswith("cut off"))
        yield from faults_of_tabs(page, width)
        page.show(look.PAPER, media="print")
        yield from (f"on paper: {it}" for it in page.look("print") if not it.startswith("cut off"))
        own = desk.address.split("#")[0]
        for event in page.events:
            url = event.get("params", {}).get("request", {}).get("url", own)
            if not url.startswith(own) and url != "about:blank":
                yield f"it loads {url}"
            if event.get("method") in ("Runtime.exceptionThrown", "Runtime.consoleAPICalled", "Log.entryAdded"):
                yield f"{width}: the browser says {json.dumps(event)[:300]}"


def faults_of_tabs(page, width):
    """Whether Tab comes to every control."""
    page.value("document.activeElement.blur(); scrollTo(0, 0)")
    count = page.value(f"(() => {{ {CONTROLS}.forEach(it => {{ delete it.dataset.met; }}); document.addEventListener('focusin', it => {{ it.target.dataset.met = 1; }}); return {CONTROLS}.length; }})()")
    for _ in range(count + 2):
        page.press("Tab", 9)
    left = page.value(f"{CONTROLS}.filter(it => !it.dataset.met).map(it => it.outerHTML.slice(0, 60))")
    return [f"{width}: Tab doesn't come to {it}" for it in left[:3]]


def take_pictures(page, desk, folder):
    """The pictures of docs/pictures: a moment of a board on a screen, and the same on a phone in the dark with a layout at the table."""
    for name, width, height, dark in (("desk.png", 1280, 940, False), ("desk-phone.png", 390, 844, True)):
        open_at(page, desk, *PICTURED, width, dark)
        page.ask("Emulation.setDeviceMetricsOverride", width=width, height=height, deviceScaleFactor=1, mobile=width < 500)
        page.settled()
        page.until("document.getElementById('words').textContent.length > 10", 10)
        if dark:
            page.press("3", 51)
            page.until("document.querySelector('.cells [aria-pressed=true]') !== null", 5)
        page.value("document.querySelectorAll('.track i').forEach(it => { it.style.transition = 'none'; })")
        with open(os.path.join(folder, name), "wb") as file:
            file.write(base64.b64decode(page.ask("Page.captureScreenshot")["data"]))


def used(page, desk, room):
    """What is wrong with the desk as a person uses it."""
    for width in WIDTHS:
        for faults in (lambda: faults_of_bars(page, desk, room, width), lambda: faults_of_steps(page, desk, width), lambda: faults_of_stopping(page, desk, width),
                       lambda: faults_of_layouts(page, desk, width), lambda: faults_of_what_if(page, desk, room, width),
                       lambda: faults_of_keeping(page, desk, room, width), lambda: faults_of_markup(page, desk, width),
                       lambda: faults_of_looks(page, desk, width)):
            try:
                yield from faults() or ()
            except Wrong as why:
                yield f"{width}: {why}"


def driven(desk, room, pictures):
    """What is wrong in the browser; None if there is none that can be driven."""
    program = shutil.which("chromium") or shutil.which("chromium-browser")
    if not program:
        return None
    with tempfile.TemporaryDirectory(ignore_cleanup_errors=True) as profile:
        page = Page(program, profile)
        try:
            page.begin()
            if pictures:
                take_pictures(page, desk, pictures)
            return list(used(page, desk, room))
        except (OSError, EOFError):
            return None
        finally:
            page.end()


def faults_of_code():
    """What the unit tests say, and mypy if it is there."""
    for name, words in (("unittest", [sys.executable, "-m", "unittest", "discover", "-t", ".", "-s", "alphamu_desk/tests"]), ("mypy", ["mypy", "--strict", "--cache-dir", os.devnull, "alphamu_desk"])):
        if words[0] == sys.executable or shutil.which(words[0]):
            run = subprocess.run(words, cwd=TOP, capture_output=True, text=True, check=False, env={**os.environ, "PYTHONDONTWRITEBYTECODE": "1"})
            if run.returncode or name == "unittest" and "Ran 0 tests" in run.stderr:
                yield f"{name}: {(run.stdout + run.stderr)[-1500:]}"


def main():
    parser = argparse.ArgumentParser(description="Uses the desk in a headless Chromium.")
    parser.add_argument("--pictures", metavar="FOLDER")
    given = parser.parse_args()
    if not is_ready(PROGRAM, "desk"):
        return 1
    if given.pictures:
        os.makedirs(given.pictures, exist_ok=True)
    signal.signal(signal.SIGALRM, look.is_silent)
    with tempfile.TemporaryDirectory() as room:
        path = os.path.join(room, "club.pbn")
        with open(path, "w", encoding="utf-8") as file:
            file.write(desk_boards.club())
        desk = Desk([path])
        try:
            wrong = [*faults_of_code(), *faults_of_lin(desk, room), *faults_of_fact(desk)]
            found = driven(desk, room, given.pictures)
        finally:
            ended = desk.end()
        wrong += [*(found or []), *ended]
    for line in wrong[:30]:
        print(line[:2000])
    print(f"desk: {LIN} .lin boards, {'no Chromium that can be driven, so no page was looked at' if found is None else f'{len(WIDTHS)} widths in Chromium'}, {len(wrong)} wrong")
    return 0 if not wrong else 1


if __name__ == "__main__":
    sys.exit(main())
