#!/usr/bin/env python3
"""page.py [--jobs N] [--seconds N] [--only PATTERN] [--folder FOLDER] [PROGRAM]

Asks ./study for the page (`page`) of each case in cases/ that expects a report, of the same with hostile tags in its deal file, and
of a report of MOVES moves for the board of each folder in EXAMPLES. A page must be well formed (each tag closed in order, and XML
after its document type), its links must lead to parts of it, nothing on it may be loaded, its element `text` must hold the report
byte for byte, and its signs must say what the report's vectors say. Its steps must be those of the job `words`, and what sampling
believes must be what the job `fusion` says. Where it believes in more than the best line makes, the layouts that this line fails must
be named, each with a card that gives it up by the words of the line. The weights of the layouts, and the lines that make each, must
agree with the report. What is said to decide a vector must be the first fact, or the first two, that by the hands on the page are so
in exactly its layouts.
Where the lines part must be where the report's plans, walked through level by level, first play different cards.
What the named card keeps is promised "whatever the defenders do" only if the report plans every card that declarer's side has left, or
if the job `cards` says that the card wins no less; otherwise the promise is an upper bound, with that least if it is known.
If the study searches for the report of a case, its page must be the same but for two things: what it promises, and a table of all
cards, which must say what the job `cards` says. The card that the headline names is marked there, and no other.
Each layout can be picked, has its rule of style, and has at the table the hands of the list; and the lines that are played out
in it end and go, trick by trick, as the games of the job `lines` do.
The pages that cases in cases/study/ expect must be XML too.
A report that `check` refuses must be refused with the same line and status, and so must one whose card can't be played or begins
none of its lines. The exit status is 0 only if nothing is wrong, and if
at least LEAST pages were made.

With --folder it asks for the pages of other cases in its place: a folder of folders with the words in `args`, the text that `solve`
must give in `expect_out` and its status in `expect_code`. Each page must be well formed and marked as above, and hold its report.

Both programs must be there and current: ./build makes them."""
import base64
import fnmatch
import hashlib
import os
import re
import subprocess
import sys
import tempfile
import xml.etree.ElementTree
from concurrent.futures import ProcessPoolExecutor
from html.parser import HTMLParser

sys.dont_write_bytecode = True
import playing
import reading
from cases import STUDY, TOP, bytes_of, expected, is_ready, is_refused_alike, names_of_cases, names_of_study_cases, parser_of, run, words_of
from options import job_of, with_job
from playing import card_named, name_of

REPORT, LINES = b"report.of.the.case", b"words.of.the.case"
# Reports with more lines are left out: telling them takes long.
MOST_LINES, LEAST = 20000, 100
EXAMPLES, MOVES = ("restricted-choice", "slam", "squeeze-or-finesse", "two-way-finesse"), "4"
# How many lines are played out, and how many moves a page plans to judge each card, if it has no more layouts than this, and else one.
PLAYED, MOST_PLANNED, FEW_LAYOUTS = 4, 4, 40
SIGNS = {"1": "\u2713", "0": "\u2717"}
PLACES = ("North", "East", "South", "West")
LETTERS = {"\u2660": "S", "\u2665": "H", "\u2666": "D", "\u2663": "C"}
HOSTILE = b'</li><script>alert(1)</script>&amp;<b class=\'x\'>\xe9\x0b\xef\xbf\xbe'
SHOWN = "</li><script>alert(1)</script>&amp;<b class='x'>\ufffd\ufffd\ufffd"


class Reader(HTMLParser):
    """The elements of a page, and what is wrong with it."""

    def __init__(self):
        super().__init__()
        self.open, self.ids, self.links, self.wrong, self.texts, self.scripts = [], set(), [], [], {}, 0

    def handle_starttag(self, tag, attrs):
        self.open.append((tag, dict(attrs).get("id")))
        self.note(tag, attrs)

    def handle_startendtag(self, tag, attrs):
        self.note(tag, attrs)

    def handle_endtag(self, tag):
        if not self.open or self.open[-1][0] != tag:
            self.wrong.append(f"</{tag}> closes {self.open[-1:]}")
        else:
            self.open.pop()

    def handle_data(self, data):
        for key in {self.open[-1], *((tag, None) for tag, _ in self.open)} if self.open else ():
            self.texts[key] = self.texts.get(key, "") + data

    def note(self, tag, attrs):
        names = dict(attrs)
        self.scripts += tag == "script"
        if tag in ("img", "link", "iframe", "object") or "src" in names or any(name.startswith("on") for name in names) or self.scripts > 1:
            self.wrong.append(f"<{tag}> loads or runs something")
        if names.get("id") in self.ids:
            self.wrong.append(f"two elements are called {names['id']}")
        if "id" in names:
            self.ids.add(names["id"])
        if "href" in names:
            self.links.append(names["href"])


def text_of(element):
    """What an element shows, with suits as letters and without the words for those who hear the page."""
    shown = "".join(text_of(it) for it in element) if element.tag != "i" else ""
    return LETTERS.get(element.text, element.text or "") + shown + (element.tail or "") if element.tag != "i" else element.tail or ""


def rows_of(page, name):
    """The rows of the table in a part of the page, below its head."""
    part = next(it for it in page.iter("section") if it.get("id") == name)
    return [[text_of(cell).strip() for cell in row] for row in part.find(".//tbody")]


def faults_of_script(reader, page):
    """What is wrong with the only script: the policy must name its digest, and what it shows must be hidden before it runs."""
    digest = base64.b64encode(hashlib.sha256(reader.texts.get(("script", None), "").encode()).digest()).decode()
    policy = next(it.get("content") for it in page.iter("meta") if it.get("http-equiv"))
    wrong = [] if policy.split() == f"default-src 'none'; style-src 'unsafe-inline'; script-src 'sha256-{digest}'".split() else ["the policy isn't for the script"]
    shown = [it for part in page.iter("p") if part.get("hidden") for it in part]
    return wrong + ["a button is shown without the script"] * any(it not in shown for it in page.iter("button"))


def numbers_in(words):
    """The layouts that these words name, as "1, 3, 8 to 10"."""
    spans = [list(map(int, it.split(" to "))) for it in words.split(", ")]
    return {number for ends in spans for number in range(ends[0], ends[-1] + 1)}


def faults_of_marks(page, width):
    """What is wrong with the marks of steps: one that not every layout can reach must have a class for each that is made or fails from there."""
    for line, part in enumerate((it for it in page.iter("div") if it.get("class") == "words"), 1):
        for place, step in enumerate(part.iter("li")):
            numbers = re.search(r"\((?:made in ([^;)]*))?(?:; )?(?:fails in ([^)]*))?\):", text_of(step))
            reached = {number for it in numbers.groups() if it for number in numbers_in(it)}
            wanted = ["step", *(f"l{it}" for it in sorted(reached))] if len(reached) < width else []
            if step.get("id") != f"step-{line}-{place}" or step.get("class", "").split() != wanted:
                yield f"line {line}, step {place}: called {step.get('id')} and marked {step.get('class')}"


def steps_of(lists, depth=0):
    """The steps of nested lists as lines, indented, with suits as letters."""
    for step in lists.iterfind("ul/li"):
        shown = (step.text or "") + "".join(text_of(it) for it in step if it.tag != "ul")
        yield "  " * depth + " ".join(shown.split())
        yield from steps_of(step, depth + 1)


def faults_of_beliefs(page, entries, fusion):
    """What is wrong with what sampling is said to believe, by the text of the job fusion."""
    judged = re.findall(r"^card (..) vector ([01]+) (?:count|weight) (\d+)$", fusion.decode(), re.M)
    wanted = []
    for card, bits, weight in judged:
        kept = [it for _, it, plan in entries if plan is None or plan[0] == card_named(card.encode())]
        best = "\u2013" if not kept else f"{max(kept)} \u25bc" if max(kept) < int(weight) else str(max(kept))
        wanted.append([card, weight, best, *(SIGNS[bit] for bit in bits)])
    wrong = [] if rows_of(page, "sampling") == wanted else ["what sampling believes differs from the job fusion"]
    most = max(int(weight) for _, _, weight in judged)
    named = " ".join(card for card, _, weight in judged if int(weight) == most)
    part = next(it for it in page.iter("section") if it.get("id") == "sampling")
    if f"It believes most in {named} with {most} of " not in text_of(part):
        wrong.append("the cards of which sampling believes most differ from the job fusion")
    return wrong


def plays_of(item):
    """The lines that are played out in a layout of the list, with suits as letters."""
    return [text_of(it).translate({ord(sign): letter for sign, letter in LETTERS.items()}).strip() for it in item.iterfind("details/p")]


def refutations_in(part):
    """Why beliefs aren't true: of each card its line, and the layouts by the card that gives them up; none if it can't be read."""
    found = []
    for line in steps_of(part):
        head, given = (re.fullmatch(pattern, line) for pattern in (r"(..): line (\d+) gives up layouts", r"  with (..):((?: \d+)+)"))
        if head:
            found.append((head[1], int(head[2]), {}))
        elif given:
            found[-1][2][given[1]] = list(map(int, given[2].split()))
        else:
            return None
    return found


def faults_of_refutations(page, entries, fusion, told):
    """What is wrong with why beliefs aren't true: the layouts that are believed in and fail, each once. Their cards must give them up
    by the words of the line, and be those of the list of layouts, if the line is played out there."""
    wanted, wrong = [], []
    for card, bits, weight in re.findall(r"^card (..) vector ([01]+) (?:count|weight) (\d+)$", fusion.decode(), re.M):
        kept = [(worth, -number, vector.decode()) for number, (vector, worth, plan) in enumerate(entries, 1) if plan is None or plan[0] == card_named(card.encode())]
        worth, number, vector = max(kept, default=(int(weight), 0, ""))
        if worth < int(weight):
            wanted.append((card, -number, [at for at, both in enumerate(zip(bits, vector), 1) if both == ("1", "0")]))
    part = next(it for it in page.iter("section") if it.get("id") == "sampling")
    found = refutations_in(part)
    if found is None:
        return ["why beliefs aren't true can't be read"]
    if [(card, line, sorted(sum(given.values(), []))) for card, line, given in found] != wanted:
        wrong.append(f"the layouts that refute what sampling believes are {found} in place of {wanted}")
    if any(list(given) != sorted(given, key=lambda it: card_named(it.encode())) or any(it != sorted(it) for it in given.values()) for _, _, given in found):
        wrong.append("what refutes a belief isn't in order")
    if bool(found) != any("isn\u2019t true" in text_of(it) for it in part.iter("h3")):
        wrong.append("why a belief isn't true has no head, or nothing below it")
    items = list(map(plays_of, next(it for it in page.iter("ol") if it.get("class") == "layouts")))
    for _, line, given in found:
        phrases = re.findall(r" (..) from (?:hand|dummy), giving up ([\d, to]*\d)", " ".join(told[line - 1]))
        for card, numbers in given.items():
            if not set(numbers) <= set().union(*(numbers_in(words) for it, words in phrases if it == card)):
                wrong.append(f"line {line} doesn't give up {numbers} with {card} by its words")
            if line <= PLAYED and any(not items[at - 1][line - 1].endswith(f" (given up with {card})") for at in numbers):
                wrong.append(f"line {line} gives up {numbers} with another card than {card} in the list of layouts")
    return wrong


def faults_of_layouts(page, entries):
    """What is wrong with the list of layouts: which lines make each, and what they weigh together."""
    wrong, weights = [], []
    items = next(it for it in page.iter("ol") if it.get("class") == "layouts")
    for place, item in enumerate(items):
        weight, makers = re.fullmatch(r"(?:Weight (\d+)\. )?(?:Made by line((?: \d+)+)|No line makes it)\.", text_of(item.find("p")).strip()).groups()
        weights.append(int(weight or 1))
        if list(map(int, (makers or "").split())) != [number for number, it in enumerate(entries, 1) if it[0][place:place + 1] == b"1"]:
            wrong.append(f"layout {place + 1} is said to be made by lines{makers}")
    if any(sum(it for it, bit in zip(weights, bits.decode()) if bit == "1") != weight for bits, weight, _ in entries):
        wrong.append("the weights of the layouts differ from those of the lines")
    return wrong


def place_apart(plan, other):
    """The cards after which two plans first play different cards, and those cards; none if the plans are the same."""
    level = [((), plan, other)]
    while level:
        for cards, one, two in level:
            if isinstance(one, tuple) and one[0] != two[0]:
                return cards, one[0], two[0]
        level = [((*cards, card), below, below_too) for cards, one, two in level if one
                 for card, below, below_too in ([(one[0], one[1], two[1])] if isinstance(one, tuple) else
                                                [(card, below, dict(two)[card]) for card, below in one])]
    return None


def told_apart(board, number, place):
    """What a page says of the first line and the one of this number, which part at this place."""
    if place is None:
        return f"Lines 1 and {number} are the same."
    cards, one, two = place
    moment, told = reading.moment_after(board), []

    def shown(card):
        seat = moment.turn()
        name, front = name_of(card).decode(), PLACES[(board.declarer + seat) % 4]
        return f"{front} {name}" if seat % 2 else name + (" from dummy" if seat else " from hand")

    for card in cards:
        said = shown(card)
        moment.play(moment.turn(), card)
        told.append(said + ("," if moment.trick else ";"))
    front = " ".join(["after", *told]) if told else "at once"
    return f"Lines 1 and {number}: {front} line 1 plays {name_of(one).decode()} and line {number} {shown(two)}."


def faults_of_partings(page, entries, board):
    """What is wrong with the places at which the lines are said to part."""
    part = next(it for it in page.iter("section") if it.get("id") == "partings")
    first, *plans = (plan for _, _, plan in entries)
    wanted = [told_apart(board, number, place_apart(first, plan)) for number, plan in enumerate(plans[:5], 2)]
    shown, text = [" ".join(text_of(it).split()) for it in part.iter("li")], text_of(part)
    if shown != wanted or ("no second line" in text) != (not plans) or ("Only the first six" in text) != (len(plans) > 5):
        return [f"where the lines part: {shown} in place of {wanted}"]
    return []


def facts_of(page):
    """What may decide a vector, in order: each fact in words, and the layouts in which it is so, by the hands on the page."""
    items = next(it for it in page.iter("ol") if it.get("class") == "layouts")
    deals = [[{it[0]: it[1:] for it in ("".join(text_of(suit).split()) for suit in side.iter("li"))} for side in item.findall("div")] for item in items]
    seats = [side.find("b").text for side in items[0].findall("div")]
    facts = [(f"{seats[side]} holds {suit}{rank}", [rank in deal[side][suit] for deal in deals])
             for rank in "AKQJT98765432" for suit in "SHDC" for side in (0, 1)]
    for count in range(14):
        for suit in "SHDC":
            for side in (0, 1):
                lengths = [len(deal[side][suit]) for deal in deals]
                facts.append((f"{seats[side]} has {f'exactly {count}' if count else 'no'} {suit}", [it == count for it in lengths]))
                facts.append((f"{seats[side]} has at least {count} {suit}", [it >= count for it in lengths]))
    return [(words, tuple(so)) for words, so in facts]


def reason_of(facts, bits):
    """The first fact that is so in exactly these layouts, or the first two with 'and' or 'or', in words; nothing if none is, or if all layouts are made, or none."""
    if len(set(bits)) < 2:
        return ""
    alone = [words for words, so in facts if so == bits]
    above = [(words, so) for words, so in facts if all(it >= bit for it, bit in zip(so, bits))]
    below = [(words, so) for words, so in facts if all(it <= bit for it, bit in zip(so, bits))]
    both = (f"{one} and {two}" for one, so in above for two, too in above if tuple(a and b for a, b in zip(so, too)) == bits)
    either = (f"{one} or {two}" for one, so in below for two, too in below if tuple(a or b for a, b in zip(so, too)) == bits)
    return alone[0] if alone else next(both, None) or next(either, "")


def faults_of_reasons(page, entries):
    """What is wrong with what is said to decide the vectors."""
    facts, cache = facts_of(page), {}
    wanted = [cache.setdefault(bits, reason_of(facts, tuple(bit == "1" for bit in bits.decode()))) for bits, _, _ in entries]
    told = [(it.find("p") is not None and " ".join(text_of(it.find("p")).split())) or "" for it in page.iter("div") if it.get("class") == "words"]
    if told != [it and f"Among these layouts it makes exactly those in which {it}." for it in wanted]:
        return ["what decides the vectors differs"]
    card = card_named(" ".join(text_of(next(page.iter("h1"))).split())[len("Play the "):][:2].encode())
    kept = [(weight, reason) for (_, weight, plan), reason in zip(entries, wanted) if plan is None or plan[0] == card]
    first = max(kept, key=lambda it: it[0])[1] if kept else ""
    shown = [" ".join(text_of(it).split()) for it in next(page.iter("header")).findall("p")]
    said = [it for it in shown if it.startswith("Among these layouts")]
    if said != ([f"Among these layouts, the line that it keeps makes exactly those in which {first}."] if first else []):
        return ["what decides the line that the card keeps differs"]
    return []


def hands_of(lists):
    """What these lists show: a hand each, suit by suit."""
    return [[" ".join(text_of(suit).split()) for suit in it] for it in lists]


def faults_of_picker(page, width):
    """What is wrong with the picker of a layout, its rules, and the hands that it shows."""
    wrong = []
    choices = [it.text for it in page.find(".//select[@id='pick']")]
    if choices != ["any", *map(str, range(1, width + 1))]:
        wrong.append(f"the choices are {choices}")
    rules = re.findall(r"^#table:has\(>p>select>option:nth-child\(.*", page.find(".//style").text, re.M)
    numbers = [list(map(int, re.findall(r"\((\d+)\)", it))) for it in rules]
    if numbers != [it for at in range(1, width + 1) for it in ([at + 1, at + 1, at + 1, at + 3, at + 1, at + 3, at + 1, at], [at + 1])]:
        wrong.append("the rules don't show the layouts")
    if [list(map(int, it)) for it in re.findall(r"child\((\d+)\):checked\)~#lines \.step:not\(\.l(\d+)\)\{display:none\}$", "\n".join(rules), re.M)] != [
            [at + 1, at] for at in range(1, width + 1)]:
        wrong.append("the rules don't hide the steps")
    items = next(it for it in page.iter("ol") if it.get("class") == "layouts")
    listed = [dict(zip((side.find("b").text for side in item.iterfind("div")), hands_of(side.find("ul") for side in item.iterfind("div")))) for item in items]
    part = next(it for it in page.iter("div") if it.get("class") == "table")
    for seat in part:
        place, shown = (seat.findtext("h3") or "").split(",")[0], hands_of(it for it in seat.iterfind("ul") if it.get("class") == "one")
        if seat.get("class") != "m" and shown != [it[place] for it in listed if place in it]:
            wrong.append(f"the hands of {place} differ from those of the list")
    return wrong


def games_in(text):
    """Of each game of the job lines whether it is made, and the cards of its tricks."""
    for game in text.decode().split("\n\n")[:-1]:
        rows = re.search(r'^\[Play "."\]\n(.*)^\*', game, re.M | re.S)[1].splitlines()
        yield re.search(r'^\[Event ".*: (made|down)"\]', game, re.M)[1], [set(it.split()) - {"-"} for it in rows]


def faults_of_plays(page, head, lines, games, fusion):
    """What is wrong with the first lines of a report with this head, played out, by the texts of the jobs lines and fusion."""
    wrong, games = [], list(games_in(games))
    made = ["1" in bits for bits in zip(*re.findall(r"^card .. vector ([01]+) ", fusion.decode(), re.M))]
    begun = len(re.search(r"^trick .(.*)$", head.decode(), re.M)[1].replace("-", "").split())
    items = next(it for it in page.iter("ol") if it.get("class") == "layouts")
    for place, item in enumerate(items):
        shown = plays_of(item)
        wanted = [(f"Line {line + 1}", *games[line * len(items) + place]) for line in range(min(lines, PLAYED))]
        for text, (line, ending, tricks) in zip(shown, wanted):
            text, _, card = text.partition(" (given up with ")
            if bool(card) != (made[place] and ending == "down") or card and not any(card.rstrip(")") in it for it in tricks):
                wrong.append(f"layout {place + 1}: {text} is given up with {card}")
            cards = [it.split("\xa0") for it in text.split(": ", 1)[1].split(" | ")]
            first, *others = tricks[-len(cards):]
            if not text.startswith(f"{line} {ending}: ") or [set(it) for it in cards[1:]] != others or not set(cards[0]) <= first:
                wrong.append(f"layout {place + 1}: {text} differs from the game")
            if [len(it) for it in cards] != [4 - begun, *[4] * len(others)]:
                wrong.append(f"layout {place + 1}: {text} has too few cards")
        if len(shown) != len(wanted):
            wrong.append(f"layout {place + 1}: {len(shown)} lines are played out")
    return wrong


def xml_of(text):
    """What follows the document type of a page as XML, or else none, and what is wrong with it."""
    try:
        return xml.etree.ElementTree.fromstring(text.split("\n", 1)[1]), []
    except xml.etree.ElementTree.ParseError as error:
        return None, [f"no XML: {error}"]


def page_of(text, report):
    """The page with this report, and what is wrong with it as a page; no page if it is no XML."""
    reader = Reader()
    text = text.decode()
    reader.feed(text)
    reader.close()
    wrong = reader.wrong + [f"<{tag}> isn't closed" for tag, _ in reader.open]
    wrong += [f"{link} leads nowhere" for link in reader.links if not link.startswith("#") or link[1:] not in reader.ids]
    page, faults = xml_of(text)
    if page is None:
        return None, wrong + faults
    if reader.texts.get(("pre", "text"), "").encode() != report:
        wrong.append("the report on the page differs")
    width = len(reading.report_of(report)[2][0][0])
    return page, [*wrong, *faults_of_script(reader, page), *faults_of_marks(page, width)]


def faults_of(text, deal, report, words, fusion, games):
    """What is wrong with a page of this report for this deal, by the texts of the jobs words, fusion and lines."""
    page, wrong = page_of(text, report)
    if page is None:
        return wrong
    head, _, entries = reading.report_of(report)
    if [row[3:] for row in rows_of(page, "trade-offs")] != [[SIGNS[bit] for bit in bits.decode()] for bits, _, _ in entries]:
        wrong.append("the signs differ from the vectors")
    told = [[line for line in it.split("\n") if line] for it in re.split(r"^vector .*\n", words.decode(), flags=re.M)[1:]]
    shown = [list(steps_of(it)) for it in page.iter("div") if it.get("class") == "words"]
    if shown != told:
        wrong.append("the steps of the lines differ from those of the job words")
    wrong += faults_of_beliefs(page, entries, fusion) + faults_of_layouts(page, entries) + faults_of_reasons(page, entries)
    wrong += faults_of_refutations(page, entries, fusion, told)
    wrong += faults_of_partings(page, entries, reading.board_of(reading.games_of(deal)[0]))
    wrong += faults_of_picker(page, len(entries[0][0])) + faults_of_plays(page, head, len(entries), games, fusion)
    return wrong + faults_of_promise(text.decode(), deal, report)


def plans_all(deal, moves):
    """Whether as many moves plan every card that declarer's side has left."""
    hands = reading.moment_after(reading.board_of(reading.games_of(deal)[0])).hands
    return len(hands[0]) + len(hands[2]) <= moves


def promise_of(deal, report, least=None):
    """What a page must promise of the card that a report names, and how far it must say the lines are planned: by the least that the
    card is known to win, if the report was searched for."""
    _, moves, entries = reading.report_of(report)
    is_whole = plans_all(deal, moves)
    card = card_named(re.search(rb"^card (..) ", report, re.M)[1])
    kept = max((weight for _, weight, plan in entries if plan is None or plan[0] == card), default=0)
    is_sure = is_whole or least == kept
    rivals = "of this report makes" if least is None else "makes" if is_whole else "that plans as many cards makes"
    others = f"No line {rivals} more." if kept == max(weight for _, weight, _ in entries) else "Another line of this report makes more."
    known = "" if is_sure or least is None else f" Whatever the defenders do, a line that begins with it makes at least {least}."
    most, ending = ("", ", whatever the defenders do.") if is_sure else ("at most ", f" (cards planned: {moves}).")
    horizon = "Every card of declarer\u2019s side is planned, to the end of the play." if is_whole else (
        f"Cards of declarer\u2019s side that are planned: {moves}. " + (
            "Planning more cards doesn\u2019t change the figure: it is also the least that the card makes." if is_sure else
            "If the result is open after them, it is judged as if all hands were seen: with more cards planned the figure can be lower, never higher."))
    return rf"It keeps a line that makes {most}{kept} of \d+ (layouts|by weight){re.escape(f'{ending} {others}{known}')}", horizon


def faults_of_promise(shown, deal, report, least=None):
    """What is wrong with what a page promises of the card to play."""
    page = xml.etree.ElementTree.fromstring(shown.split("\n", 1)[1])
    told = [" ".join(text_of(it).split()) for it in next(page.iter("header")).findall("p")]
    promise, horizon = promise_of(deal, report, least)
    return [] if re.fullmatch(promise, told[0]) and horizon in told else ["what the card keeps is promised otherwise"]


def without_promise(shown):
    """A page without what it promises, and without how far its lines are planned."""
    return re.sub(r"<p class='promise'>.*?</p>\n|<p>Cards of declarer&#8217;s side that are planned: .*?</p>\n", "", shown, flags=re.S)


def faults_of_search(searched, page, cards, deal, report):
    """What is wrong with the page of a report that was searched for, by the page of that report and the text of the job cards."""
    parts = re.findall(r"<section id='cards'>.*?</section>\n", searched, re.S)
    if [without_promise(page)] != [without_promise(searched).replace(it, "") for it in parts]:
        return ["the page of a report that is searched for differs"]
    moves = re.search(r"^moves (\d+|all)$", cards, re.M)[1].replace("all", str(reading.report_of(report)[1]))
    named = re.search(rb"^card (..) ", report, re.M)[1].decode()
    rows = re.findall(r"^card (..) most (\d+) least (\d+) sampled (\d+) final (yes|no) ", cards, re.M)
    wanted = [[f"{card} to play" if card == named else card, *others] for card, *others in rows]
    wrong = [] if rows_of(xml.etree.ElementTree.fromstring(searched.split("\n", 1)[1]), "cards") == wanted else ["the table of all cards differs"]
    total = re.search(r"^layouts (\d+) weight (\d+)$", cards, re.M)
    outs = f"out of {total[1]} layouts.", f"out of {total[2]} by weight."
    if f"planned here: {moves}. " not in parts[0] or not any(it in parts[0] for it in outs):
        wrong.append("the head of the table of all cards differs")
    least = next(int(least) for card, _, least, *_ in rows if card == named)
    return wrong + faults_of_promise(searched, deal, report, least)


def with_fewer(words, most):
    """The words with no more moves than these, or without any if there are none to be."""
    at = next(place for place, word in enumerate(words) if word.startswith(b"--moves"))
    joined = words[at].startswith(b"--moves=")
    value = words[at].split(b"=")[1] if joined else words[at + 1]
    if most and (not value.isdigit() or int(value) <= most):
        return words
    fewer = [] if not most else [b"--moves=%d" % most] if joined else [b"--moves", b"%d" % most]
    return [*words[:at], *fewer, *words[at + 2 - joined:]]


def judge_search(case, page, deal, report, seconds):
    """What is wrong with the page that the study makes by a search, by the page of the case's report."""
    searched = run(STUDY, case, seconds, words=with_job(words_of(case), b"page"))
    kept = re.search(rb"^kept (.*)$", expected(case)[0], re.M)
    most = MOST_PLANNED if not kept or len(kept[1].split()) <= FEW_LAYOUTS else 1
    most = None if plans_all(deal, reading.report_of(report)[1]) else most
    cards = run(STUDY, case, seconds, words=with_fewer(with_job(words_of(case), b"cards"), most))
    if searched[2] or cards[2]:
        return [] if searched == cards else [f"the search for a page ends with {searched[1:]}"]
    return faults_of_search(searched[0].decode(), page.decode(), cards[0].decode(), deal, report)


def with_card(report, card):
    """A report that names this card, and the number of the line that does."""
    lines = report.split(b"\n")
    lines[-3] = b"card " + name_of(card) + lines[-3][7:]
    return b"\n".join(lines), len(lines) - 2


def judge_cards(ask, report, states):
    """What is wrong with the answers to a report that names another card: there is a page only if the card can be played, and a line
    of the report begins with it or stops before it."""
    plans = [plan for _, _, plan in reading.report_of(report)[2]]
    choices = playing.choices(states)
    own = [card for card in choices if any(plan is None or plan[0] == card for plan in plans)]
    foreign = [min(set(range(52)) - set(choices)), *[card for card in choices if card not in own][:1]]
    wrong = []
    for card in [own[-1], *foreign]:
        changed, number = with_card(report, card)
        text, line, status = ask(b"page", [(REPORT, changed)])
        answer = (b"alphamu: report line %d: Card\n" % number, 11) if card in foreign else (b"", 0)
        if (line, status) != answer or bool(text) == bool(status):
            wrong.append(f"the card {name_of(card)}: {line!r}, status {status}")
    return wrong


def judge(case, program, seconds):
    """What is wrong with the pages of a case, and how many there are."""
    report, _, status = expected(case)
    if status or job_of(words_of(case)) != "solve" or report.count(b"\n") > MOST_LINES:
        return [], 0
    options = reading.ask_of([word.decode() for word in words_of(case)])[1]
    deal, layouts = (os.fsencode(options[it]) for it in ("deal", "layouts"))

    def told(job, more=()):
        words = [b"--job", job, b"--deal", deal, b"--layouts", layouts, b"--report", REPORT]
        return run(STUDY, case, seconds, words=words, files={REPORT: report, **dict(more)})

    page, said, status = told(b"page")
    if status:
        return [f"{case}: no page: {said!r}"], 0
    fusion = run(program, case, seconds, words=[b"--job", b"fusion", b"--deal", deal, b"--layouts", layouts])[0]
    text = bytes_of(case, os.fsdecode(deal))
    wrong = faults_of(page, text, report, told(b"words")[0], fusion, told(b"lines")[0]) + judge_search(case, page, text, report, seconds)
    tags = b"".join(b'[%s "%s"]\n' % (name, HOSTILE) for name in (b"Event", b"Board"))
    board = reading.board_of(reading.games_of(text)[0])
    kept = reading.layouts_kept(bytes_of(case, os.fsdecode(layouts)), board)
    wrong += judge_cards(told, report, [reading.state_of(board, layout) for layout in kept.layouts])
    hostile, _, status = told(b"page", {deal: tags + text}.items())
    reader = Reader()
    reader.feed(hostile.decode())
    faults = reader.wrong + (["no page"] if status else xml_of(hostile.decode())[1])
    if faults or reader.texts.get(("li", None), "").count(SHOWN) < 1:
        wrong.append(f"hostile tags aren't told as text: {faults}")
    return [f"{case}: {it}" for it in wrong], 3


def judge_other(folder, name, seconds):
    """What is wrong with the page of a case in another folder, and whether there is one."""
    room = os.path.join(folder, name)

    def read(file):
        with open(os.path.join(room, file), "rb") as content:
            return content.read()
    words = read("args").removesuffix(b"\n").split(b"\n")
    if read("expect_code").strip() != b"0" or job_of(words) != "solve":
        return [], 0
    asked = reading.ask_of([word.decode() for word in words])
    if not asked:
        # Words that alphamu refuses, such as a table that is too large.
        return [], 0
    options = asked[1]
    asked = [STUDY, "--job", "page", "--deal", options["deal"], "--layouts", options["layouts"], "--report", "expect_out"]
    ran = subprocess.run(asked, cwd=room, capture_output=True, timeout=seconds, check=False)
    wrong = [f"no page: {ran.stderr!r}"] if ran.returncode else page_of(ran.stdout, read("expect_out"))[1]
    return [f"{name}: {it}" for it in wrong], 1


def main_of_folder(given):
    """The same for the cases of another folder."""
    names = fnmatch.filter(sorted(it for it in os.listdir(given.folder) if os.path.isdir(os.path.join(given.folder, it))), given.only)
    with ProcessPoolExecutor(given.jobs) as pool:
        told = list(pool.map(judge_other, [given.folder] * len(names), names, [given.seconds] * len(names)))
    wrong, number = [line for lines, _ in told for line in lines], sum(count for _, count in told)
    for line in wrong:
        print(line)
    print(f"page: {number} pages of {len(names)} cases, {len(wrong)} wrong")
    return 0 if number and not wrong else 1


def judge_example(program, name, seconds):
    """What is wrong with the page of an example."""
    room = os.path.join(TOP, "examples", name)

    def ask(caller, job, *words):
        words = [caller, "--job", job, "--deal", "deal.pbn", "--layouts", "layouts.lay", *words]
        return subprocess.run(words, cwd=room, capture_output=True, timeout=seconds, check=True).stdout
    report, fusion = ask(program, "solve", "--moves", MOVES), ask(program, "fusion")
    with tempfile.NamedTemporaryFile() as file:
        file.write(report)
        file.flush()
        page, words, games = (ask(STUDY, job, "--report", file.name) for job in ("page", "words", "lines"))
    with open(os.path.join(room, "deal.pbn"), "rb") as file:
        return [f"examples/{name}: {it}" for it in faults_of(page, file.read(), report, words, fusion, games)]


def faults_of_expected():
    """The pages that the study's cases expect and that are no XML."""
    pages = {case: expected(case)[0].decode() for case in names_of_study_cases() if expected(case)[0].startswith(b"<!DOCTYPE")}
    return [f"{case}: {it}" for case, text in pages.items() for it in xml_of(text)[1]]


def refusals(seconds):
    """Reports that `check` refuses."""
    wrong, number = [], 0
    for case in names_of_cases():
        if job_of(words_of(case)) == "check" and expected(case)[2] and not bytes_of(case, "fill"):
            words = [b"page" if it == b"check" else it for it in words_of(case)]
            if not is_refused_alike(run(STUDY, case, seconds, words=words), expected(case)):
                wrong.append(f"{case}: not refused as by check")
            number += 1
    return wrong, number


def main():
    parser = parser_of("Shows the reports of alphamu's cases as pages.")
    parser.add_argument("--folder", metavar="FOLDER")
    given = parser.parse_args()
    if not is_ready(given.program, "page"):
        return 1
    if given.folder:
        return main_of_folder(given)
    cases = fnmatch.filter(names_of_cases(), given.only)
    with ProcessPoolExecutor(given.jobs) as pool:
        told = list(pool.map(judge, cases, [given.program] * len(cases), [given.seconds] * len(cases)))
    not_refused, refused = refusals(given.seconds)
    shown = [judge_example(given.program, name, given.seconds) for name in EXAMPLES]
    wrong = [line for lines in (*(lines for lines, _ in told), *shown) for line in lines] + not_refused + faults_of_expected()
    for line in wrong:
        print(line)
    number = sum(count for _, count in told) + len(shown)
    print(f"page: {number} pages, {refused} reports refused, {len(wrong)} wrong")
    return 0 if number >= LEAST and refused and not wrong else 1


if __name__ == "__main__":
    sys.exit(main())
