#!/usr/bin/env python3
"""look.py [--pictures FOLDER] [PAGE ..]

Opens pages in a headless Chromium, and says what is wrong with how they look. Without a PAGE it asks ./study for one of each
folder in EXAMPLES, by a search of MOVES moves. A page must load nothing, run nothing and say nothing in the browser's log. At each of WIDTHS it may
not be wider than the window, except for what scrolls by itself. The contrast of each text with what is behind it must be at least
LEAST_CONTRAST, light and dark, of what is folded too. On paper nothing may be cut off. Each control must be reached by Tab, in the
order of the page. With no script and by keys alone a layout is picked: its hands must be at the table, its columns marked and its
item framed, and exactly the steps must be hidden that it can't reach, on a small phone and on paper too; no button may be there then.
With the page's script, and by keys too, CARDS cards of a line are played out, which must be struck out at the table, and taken back;
and all but the report is unfolded. With --pictures it leaves pictures of each page in a folder.

If there is no Chromium (Debian: `apt-get install chromium`), or it can't be driven here, it says so, and the status is 0."""
import argparse
import base64
import contextlib
import json
import os
import shutil
import signal
import subprocess
import sys
import tempfile

sys.dont_write_bytecode = True
from cases import PROGRAM, STUDY, TOP, is_ready

EXAMPLES, MOVES = ("restricted-choice", "squeeze-or-finesse", "two-way-finesse"), "4"
# How many cards of a line are played out.
CARDS = 5
# In pixels: a small phone, and a screen; and what A4 leaves between its margins.
WIDTHS, PAPER = (360, 1280), 718
LEAST_CONTRAST = 4.5
# A browser that answers nothing for this many seconds can't be driven.
PATIENCE = 120
# What is wrong with the page as it stands: texts of too little contrast, and what is wider than the window or cut off.
LOOK = """(() => {
  const parts = it => (it.match(/[\\d.]+/g) || []).map(Number), wrong = [];
  const light = it => [0.2126, 0.7152, 0.0722].reduce((sum, part, at) => {
    const x = it[at] / 255;
    return sum + part * (x <= 0.03928 ? x / 12.92 : ((x + 0.055) / 1.055) ** 2.4);
  }, 0);
  const behind = it => {
    const color = parts(getComputedStyle(it).backgroundColor);
    return color.length === 3 || color[3] === 1 ? color : it.parentElement ? behind(it.parentElement) : null;
  };
  const walker = document.createTreeWalker(document.body, NodeFilter.SHOW_TEXT);
  for (let text; (text = walker.nextNode());) {
    const it = text.parentElement, shown = text.data.trim();
    if (!shown || it.tagName === 'I' || !it.getClientRects().length) continue;
    const two = [light(parts(getComputedStyle(it).color)), light(behind(it) || [255, 255, 255])].sort((a, b) => b - a);
    const contrast = (two[0] + 0.05) / (two[1] + 0.05);
    if (contrast < LEAST) wrong.push('contrast ' + contrast.toFixed(1) + ' of ' + shown.slice(0, 30));
  }
  const width = document.documentElement.clientWidth;
  if (document.documentElement.scrollWidth > width) wrong.push('wider than the window');
  for (const it of document.body.querySelectorAll('*')) {
    const style = getComputedStyle(it), scrolls = it.closest('.wide') && !PRINTED;
    if (it.tagName === 'I' || scrolls) continue;
    if (it.getBoundingClientRect().right > width + 1) wrong.push('past the edge: ' + it.textContent.slice(0, 30));
    if (style.overflowX !== 'visible' && it.scrollWidth > it.clientWidth + 1) wrong.push('cut off: ' + it.textContent.slice(0, 30));
  }
  return [...new Set(wrong)].slice(0, 5);
})()"""
# The controls that can be seen, in order, and the one that has the focus.
CONTROLS = "[...document.querySelectorAll('a[href],summary,select,button,[tabindex]')].filter(it => it.checkVisibility())"
NAMED = "(it => it.tagName + ' ' + it.textContent.trim().split('\\n')[0].slice(0, 30))"
# What is shown of the layout of a number: the hands at the table and in the list, the heads of the columns that are framed, and whether
# its item is, alone, and each row as its head.
SHOWN = """(() => {
  const words = it => it.innerText.split(/\\s+/).join(' ').trim(), all = it => [...document.querySelectorAll(it)];
  const framed = it => all(it).filter(it => getComputedStyle(it).outlineStyle === 'solid'), items = framed('.layouts>li');
  const hand = it => it.querySelector('b,h3').textContent + ' ' + words([...it.querySelectorAll('ul')].find(it => it.checkVisibility()));
  const item = all('.layouts>li')[NUMBER - 1], hands = it => it.map(hand).sort();
  return {
    told: hands([...item.querySelectorAll('.side')]), dealt: hands(all('.table>div:has(.one)')), heads: framed('thead th').map(words),
    framed: items.length === 1 && items[0] === item && framed('tr>*').length === all('#trade-offs tr,#sampling tr').length,
    hidden: all('.words li').every(it => (getComputedStyle(it).display === 'none') === it.matches('.step:not(.lNUMBER)')),
    buttons: all('button').filter(it => it.checkVisibility()).length,
  };
})()"""
# How many cards are struck out at the table, and what is said of them.
STRUCK = "[document.querySelectorAll('.table .gone').length, document.getElementById('said').textContent]"
# What is folded.
FOLDED = "[...document.querySelectorAll('details:not([open])')].map(it => it.id)"


class Browser:
    """A headless Chromium, spoken to through a pipe: messages of JSON, each with a zero byte behind it."""

    def __init__(self, program, room):
        ours, theirs = os.pipe(), os.pipe()
        words = [program, "--headless=new", "--disable-gpu", "--hide-scrollbars", "--no-first-run", "--remote-debugging-pipe", f"--user-data-dir={room}"]
        words += ["--no-sandbox"] * (os.geteuid() == 0)
        # It reads from 3 and writes to 4.
        given = f'exec 3<&{ours[0]} 4>&{theirs[1]}; exec "$@"'
        self.run = subprocess.Popen(["bash", "-c", given, "-", *words], pass_fds=(ours[0], theirs[1]), stdout=subprocess.DEVNULL, stderr=subprocess.DEVNULL)
        os.close(ours[0])
        os.close(theirs[1])
        self.to, self.come, self.number, self.events = os.fdopen(ours[1], "wb", 0), os.fdopen(theirs[0], "rb"), 0, []
        self.session = None

    def begin(self):
        target = self.ask("Target.createTarget", url="about:blank")["targetId"]
        self.session = self.ask("Target.attachToTarget", targetId=target, flatten=True)["sessionId"]
        for name in ("Page", "Runtime", "Log", "Network"):
            self.ask(f"{name}.enable")

    def next(self):
        signal.alarm(PATIENCE)
        message = bytearray()
        while (byte := self.come.read(1)) != b"\0":
            if not byte:
                raise EOFError("the browser ended")
            message += byte
        signal.alarm(0)
        return json.loads(message)

    def ask(self, method, **params):
        self.number += 1
        message = {"id": self.number, "method": method, "params": params, **({"sessionId": self.session} if self.session else {})}
        self.to.write(json.dumps(message).encode() + b"\0")
        while (found := self.next()).get("id") != self.number:
            self.events.append(found)
        if "error" in found:
            raise RuntimeError(f"{method}: {found['error']}")
        return found["result"]

    def open(self, address):
        self.events = []
        self.ask("Page.navigate", url=address)
        while not any(it.get("method") == "Page.loadEventFired" for it in self.events):
            self.events.append(self.next())

    def show(self, width, dark=False, media=""):
        self.ask("Emulation.setDeviceMetricsOverride", width=width, height=844, deviceScaleFactor=1, mobile=width < 500)
        self.ask("Emulation.setEmulatedMedia", media=media, features=[{"name": "prefers-color-scheme", "value": "dark" if dark else "light"}])

    def value(self, expression):
        return self.ask("Runtime.evaluate", expression=expression, returnByValue=True)["result"].get("value")

    def look(self, media=""):
        return self.value(LOOK.replace("LEAST", str(LEAST_CONTRAST)).replace("PRINTED", "true" if media else "false"))

    def press(self, key, code):
        for kind in ("rawKeyDown", "keyUp"):
            self.ask("Input.dispatchKeyEvent", type=kind, key=key, code=key, windowsVirtualKeyCode=code)

    def picture(self, path):
        with open(path, "wb") as file:
            file.write(base64.b64decode(self.ask("Page.captureScreenshot", captureBeyondViewport=True)["data"]))

    def end(self):
        with contextlib.suppress(OSError, EOFError):
            self.ask("Browser.close")
        self.run.kill()
        self.run.wait()


def events_at_fault(browser, address):
    """What the page loaded or ran, and what the browser logged of it."""
    for event in browser.events:
        name, told = event.get("method"), event.get("params", {})
        if name == "Network.requestWillBeSent" and told["request"]["url"] != address:
            yield f"loads {told['request']['url']}"
        elif name in ("Runtime.exceptionThrown", "Runtime.consoleAPICalled"):
            yield "a script runs"
        elif name == "Log.entryAdded":
            yield f"the browser says: {told['entry']['text']}"


def faults_of_tabs(browser):
    """What is wrong with the order in which Tab comes to the controls, from the head of the page on."""
    wanted, met = browser.value(f"{CONTROLS}.map({NAMED})"), []
    for _ in wanted:
        browser.press("Tab", 9)
        met.append(browser.value(f"{NAMED}(document.activeElement)"))
    return [f"Tab comes to {it}, and not to {other}" for it, other in zip(met, wanted) if it != other][:1]


def faults_of_picking(browser, address):
    """What is wrong with a layout that is picked by keys alone, the last one, if no script runs."""
    browser.ask("Emulation.setScriptExecutionDisabled", value=True)
    browser.show(WIDTHS[0])
    browser.open(address)
    before, number = browser.value("document.body.innerText"), browser.value("document.querySelectorAll('.layouts>li').length")
    for _ in browser.value(f"{CONTROLS}.map({NAMED})"):
        browser.press("Tab", 9)
        if browser.value("document.activeElement.id") == "pick":
            break
    for _ in range(number):
        browser.press("ArrowDown", 40)
    wrong = []
    for name, width, media in (("picked", WIDTHS[0], ""), ("picked on paper", PAPER, "print")):
        browser.show(width, media=media)
        shown = browser.value(SHOWN.replace("NUMBER", str(number)))
        wrong += [f"{name}: {it}" for it in browser.look(media)]
        wrong += [f"{name}: the table has {shown['dealt']}, and the list {shown['told']}"] * (shown["dealt"] != shown["told"])
        if shown["heads"] != [str(number)] * 2 or not shown["framed"]:
            wrong.append(f"{name}: the frames aren't round it, but round the columns {shown['heads']}")
        wrong += [f"{name}: the steps that it can't reach aren't those that are hidden"] * (not shown["hidden"])
        wrong += [f"{name}: there are {shown['buttons']} buttons without the script"] * (shown["buttons"] > 0)
    browser.show(WIDTHS[0])
    for _ in range(number):
        browser.press("ArrowUp", 38)
    if browser.value("document.body.innerText") != before:
        wrong.append("with nothing picked the page isn't as before")
    browser.ask("Emulation.setScriptExecutionDisabled", value=False)
    return wrong


def faults_of_script(browser, address, dark):
    """What is wrong with what the page's script does, by keys, on a small phone."""
    browser.show(WIDTHS[0], dark)
    browser.open(address)

    def press(name, times):
        browser.value(f"document.getElementById('{name}').focus()")
        for _ in range(times):
            browser.press(" ", 32)
        return browser.value(STRUCK)
    struck, said = press("next", CARDS)
    wrong = [f"played out: {it}" for it in browser.look()]
    if struck != CARDS or not said.startswith(f"{CARDS} of "):
        wrong.append(f"of {CARDS} cards {struck} are struck out, and the page says {said}")
    if press("back", CARDS + 1) != [0, ""]:
        wrong.append("cards that are taken back stay struck out")
    press("open", 1)
    if browser.value(FOLDED) != ["report"]:
        wrong.append(f"folded after all are opened: {browser.value(FOLDED)}")
    return wrong + list(events_at_fault(browser, address))


def faults_of(browser, page, pictures):
    """What is wrong with a page."""
    address, name = "file://" + os.path.abspath(page), os.path.splitext(os.path.basename(page))[0]
    wrong = []
    for tag, width, dark, media in (*((str(it), it, dark, "") for it in WIDTHS for dark in (False, True)), ("paper", PAPER, False, "print")):
        browser.show(width, dark, media)
        browser.open(address)
        wrong += events_at_fault(browser, address)
        wrong += [f"{tag}{' dark' * dark}: {it}" for it in browser.look(media)]
        if pictures:
            browser.picture(os.path.join(pictures, f"{name}-{tag}{'-dark' * dark}.png"))
        if not media:
            wrong += faults_of_tabs(browser)
        browser.value("document.querySelectorAll('details').forEach(it => { it.open = true; })")
        wrong += [f"{tag}{' dark' * dark} unfolded: {it}" for it in browser.look(media)]
    wrong += faults_of_picking(browser, address)
    for dark in (False, True):
        wrong += faults_of_script(browser, address, dark)
    return [f"{name}: {it}" for it in dict.fromkeys(wrong)]


def looked_at(program, pages, pictures):
    """What is wrong with the pages; or None if the browser can't be driven."""
    with tempfile.TemporaryDirectory() as profile:
        browser = Browser(program, profile)
        try:
            browser.begin()
            return [line for page in pages for line in faults_of(browser, page, pictures)]
        except (OSError, EOFError):
            return None
        finally:
            browser.end()


def is_silent(number, frame):
    raise EOFError("the browser is silent")


def make_pages(room):
    """A page of each example, by its file."""
    for name in EXAMPLES:
        page = os.path.join(room, f"{name}.html")
        words = [STUDY, "--job", "page", "--deal", "deal.pbn", "--layouts", "layouts.lay", "--moves", MOVES]
        with open(page, "wb") as file:
            subprocess.run(words, cwd=os.path.join(TOP, "examples", name), stdout=file, check=True)
        yield page


def main():
    parser = argparse.ArgumentParser(description="Looks at pages in a headless Chromium.")
    parser.add_argument("--pictures", metavar="FOLDER")
    parser.add_argument("pages", nargs="*", metavar="PAGE")
    given = parser.parse_args()
    program = shutil.which("chromium") or shutil.which("chromium-browser")
    if not program:
        print("look: there is no chromium here, so no page was looked at")
        return 0
    if not given.pages and not is_ready(PROGRAM, "look"):
        return 1
    if given.pictures:
        os.makedirs(given.pictures, exist_ok=True)
    signal.signal(signal.SIGALRM, is_silent)
    with tempfile.TemporaryDirectory() as room:
        pages = given.pages or list(make_pages(room))
        wrong = looked_at(program, pages, given.pictures)
    if wrong is None:
        print("look: the Chromium here can't be driven, so no page was looked at")
        return 0
    for line in wrong:
        print(line)
    print(f"look: {len(pages)} pages, {len(wrong)} wrong")
    return 0 if not wrong else 1


if __name__ == "__main__":
    sys.exit(main())
