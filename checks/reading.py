"""A second reading of words and files: what alphamu must answer.

It follows docs/USING.md and docs/definitions/, works with whole texts and lists of cards, and takes nothing from the program.
It knows every refusal except those of a search, and all output except that of the jobs that search (`solve`, `card`, `match`,
`made`, `boards`) or write down what a search finds (`prove`). It is slow when many cards are left to play.
"""
import itertools
import math
import re

import jobs
import logs
from playing import RANKS, after, card_named, child, choices, is_decided, legal, makes, name_of, seat_to_play, winner_of

BLANKS = b" \t\r"
SEATS = b"NESW"
MOST_LAYOUTS = 256
MOST_WEIGHT = 1000000
MOST_LEVELS = 64
NO_TRUMP = 4
# The word before what is won, by version of the text.
WORDS = {1: b"count", 2: b"weight"}


class Refusal(Exception):
    """A status and its line."""

    def __init__(self, status, line):
        self.answer = status, b"", b"alphamu: %s\n" % line


class DealFault(Exception):
    """A fault of the Deal form, by its name."""


def hand_text(cards):
    of_suit = [sorted((card % 13 for card in cards if card // 13 == suit), reverse=True) for suit in range(4)]
    return b".".join(bytes(RANKS[rank] for rank in ranks) for ranks in of_suit)


def seat_letter(text):
    """The seat that a letter names, clockwise from North, or none."""
    return SEATS.index(text.upper()) if len(text) == 1 and text.upper() in SEATS else None


# PBN text.

BAD_BYTE = re.compile(rb"[\x00-\x08\x0c\x0e-\x1f]")
STRING = rb'"(?:\\[^\n]|[^"\\\n])*"'
PIECES = re.compile(
    rb"(?P<remark>(?m:^)%[^\n]*)|(?P<blank_line>(?m:^)[ \t\r]*(?:\n|\Z))|(?P<space>[ \t\r\n])"
    rb"|(?P<comment>\{[^}]*\})|(?P<open_comment>\{)|(?P<rest>;[^\n]*)"
    rb"|(?P<string>" + STRING + rb')|(?P<open_string>")'
    rb"|(?P<tag>\[[ \t\r]*(?P<name>[A-Za-z0-9_]+)[ \t\r]*(?P<value>" + STRING + rb")[ \t\r]*\])"
    rb"|(?P<open_tag>\[[ \t\r]*[A-Za-z0-9_]+[ \t\r]*\"(?!(?:\\[^\n]|[^\"\\\n])*\"))|(?P<bad_tag>\[)"
    rb'|(?P<token>[^ \t\r\n\[{;"]+)')
TEXT_FAULTS = {"open_comment": b"OpenBrace", "open_string": b"OpenString", "open_tag": b"OpenString", "bad_tag": b"BadTag"}


class Tag:
    def __init__(self, name, value, line):
        self.name, self.value, self.line, self.tokens = name, value, line, []


def bad_pbn(line, name):
    return Refusal(4, b"deal line %d: %s" % (line, name))


def games_of(text):
    """The games of a file, each a list of tags. Raises the first fault."""
    if bad := BAD_BYTE.search(text):
        raise bad_pbn(text.count(b"\n", 0, bad.start()) + 1, b"NotText")
    text = text.removeprefix(b"\xef\xbb\xbf")
    games, at, line = [[]], 0, 1
    while at < len(text):
        piece = PIECES.match(text, at)
        kind, found = piece.lastgroup, piece[0]
        if kind in TEXT_FAULTS:
            raise bad_pbn(line, TEXT_FAULTS[kind])
        if kind == "tag":
            games[-1].append(Tag(piece["name"], re.sub(rb"\\(.)", rb"\1", piece["value"][1:-1], flags=re.S), line))
        elif kind in ("token", "string"):
            if not games[-1]:
                raise bad_pbn(line, b"StrayToken")
            games[-1][-1].tokens.append((found, line))
        elif kind == "blank_line":
            games.append([])
        line += found.count(b"\n")
        at = piece.end()
    return [game for game in games if game]


# The Deal form.

def deal_of(value):
    """The hands from North on, each a set of cards, or none if it is hidden."""
    value = value.strip(BLANKS)
    seat = seat_letter(value[:1])
    if seat is None or value[1:2] != b":":
        raise DealFault(b"Seat")
    hands = [word for word in re.split(rb"[ \t\r]+", value[2:]) if word]
    if len(hands) != 4:
        raise DealFault(b"HandCount")
    shown = [hand for hand in hands if hand != b"-"]
    if any(hand.count(b".") != 3 for hand in shown):
        raise DealFault(b"SuitCount")
    if any(bytes([byte]).upper() not in [bytes([it]) for it in b"." + RANKS] for hand in shown for byte in hand):
        raise DealFault(b"RankLetter")
    cards = [None if hand == b"-" else cards_of(hand) for hand in hands]
    every = [card for hand in cards if hand is not None for card in hand]
    if len(set(every)) < len(every):
        raise DealFault(b"Repeated")
    sizes = {len(hand) for hand in cards if hand is not None}
    if len(sizes) != 1 or not 1 <= min(sizes) <= 13:
        raise DealFault(b"Sizes")
    turned = [None] * 4
    for at, hand in enumerate(cards):
        turned[(seat + at) % 4] = hand if hand is None else frozenset(hand)
    return turned


def cards_of(hand):
    return [suit * 13 + RANKS.index(bytes([rank]).upper()) for suit, ranks in enumerate(hand.split(b".")) for rank in ranks]


# The board.

CONTRACT = re.compile(rb"[ \t\r]*([1-7])(C|D|H|S|NT?)(?:XX?)?[ \t\r]*", re.I)
TRUMPS = {b"S": 0, b"H": 1, b"D": 2, b"C": 3, b"N": NO_TRUMP, b"NT": NO_TRUMP}
CARD = re.compile(rb"([SHDC][2-9TJQKA])[!?]*", re.I)
NOTE = re.compile(rb"\$.*|=[0-9]+=|[!?]+", re.S)


class Board:
    """The board before the first card, and the plays: pairs of a seat and a card."""

    def __init__(self, declarer, trump, need, lead, hands, unseen):
        self.declarer, self.trump, self.need, self.lead = declarer, trump, need, lead
        self.hands, self.unseen, self.plays = hands, unseen, []
        self.tricks = len(hands[0])


def first_tag(game, name):
    return next((tag for tag in game if tag.name == name), None)


def board_of(game):
    for name in (b"Deal", b"Contract", b"Declarer", b"Play"):
        tag = first_tag(game, name)
        if tag and tag.value.startswith(b"#"):
            raise bad_pbn(tag.line, b"Inherited")
    deal, contract, seat = (first_tag(game, name) for name in (b"Deal", b"Contract", b"Declarer"))
    if not deal:
        raise bad_pbn(game[0].line, b"NoDeal")
    try:
        hands = deal_of(deal.value)
    except DealFault as fault:
        raise bad_pbn(deal.line, b"Deal " + fault.args[0]) from fault
    if not contract:
        raise bad_pbn(game[0].line, b"NoContract")
    if contract.value.upper() == b"PASS":
        raise bad_pbn(contract.line, b"PassedOut")
    bid = CONTRACT.fullmatch(contract.value)
    if not bid:
        raise bad_pbn(contract.line, b"BadContract")
    declarer = seat_letter(seat.value) if seat else None
    if declarer is None:
        raise bad_pbn((seat or game[0]).line, b"NoDeclarer")
    hands = hands[declarer:] + hands[:declarer]
    if hands[0] is None or hands[2] is None:
        raise bad_pbn(deal.line, b"HandHidden")
    need, lead = ending_of(game, deal, declarer, int(bid[1]) + 6, len(hands[0]))
    board = Board(declarer, TRUMPS[bid[2].upper()], need, lead, hands, unseen_in(hands))
    play = first_tag(game, b"Play")
    if play:
        read_play(board, play)
    return board


def unseen_in(hands):
    if len(hands[0]) == 13:
        return frozenset(range(52)) - hands[0] - hands[2]
    return hands[1] | hands[3] if hands[1] is not None and hands[3] is not None else None


def ending_of(game, deal, declarer, need, size):
    """The need and the seat that leads first."""
    end_need, end_lead = first_tag(game, b"EndNeed"), first_tag(game, b"EndLead")
    if not end_need and not end_lead:
        if size < 13:
            raise bad_pbn(deal.line, b"EndTags")
        return need, 1
    if end_need and (not end_lead or not re.fullmatch(rb"[0-9]{1,2}", end_need.value) or int(end_need.value) > 13):
        raise bad_pbn(end_need.line, b"EndTags")
    if not end_need or seat_letter(end_lead.value) is None:
        raise bad_pbn(end_lead.line, b"EndTags")
    return int(end_need.value), (seat_letter(end_lead.value) - declarer) % 4


def entries_in(tokens):
    """The entries of a Play section: each a card or none, with its line."""
    ended = next((at for at, (text, _) in enumerate(tokens) if text == b"*"), len(tokens))
    counted = [(text, line) for text, line in tokens[:ended] if not NOTE.fullmatch(text)]
    last = max((at for at, (text, _) in enumerate(counted) if CARD.fullmatch(text)), default=-1)
    entries = []
    for at, (text, line) in enumerate(counted):
        if text == b"+" and at > last:
            break
        if CARD.fullmatch(text):
            entries.append((card_named(text[:2]), line))
        elif text in (b"-", b"+"):
            entries.append((None, line))
        else:
            raise bad_pbn(line, b"PlayCard")
    return entries


def read_play(board, tag):
    entries = entries_in(tag.tokens)
    letter = seat_letter(tag.value)
    if any(card is not None for card, _ in entries) and (letter is None or (letter - board.declarer) % 4 != board.lead):
        raise bad_pbn(tag.line, b"PlayLeader")
    rows = [entries[at:at + 4] for at in range(0, len(entries), 4)]
    if rows:
        rows[-1] += [(None, rows[-1][0][1])] * (4 - len(rows[-1]))
    hands, leader = {0: set(board.hands[0]), 2: set(board.hands[2])}, board.lead
    for number, row in enumerate(rows):
        seats = [(leader + at) % 4 for at in range(4)]
        turned = [(seat, *row[(seat - board.lead) % 4]) for seat in seats]
        find_gap(turned, rows[number + 1:])
        trick = []
        for seat, card, line in itertools.takewhile(lambda it: it[1] is not None, turned):
            judge_card(hands.get(seat), card, trick, line, number < board.tricks)
            trick.append((seat, card))
        board.plays += trick
        if len(trick) == 4:
            leader = winner_of(trick, board.trump)


def find_gap(turned, rows_after):
    missing = next((at for at, it in enumerate(turned) if it[1] is None), None)
    if missing is None:
        return
    after = [line for _, card, line in turned[missing:] if card is not None]
    if after or rows_after:
        raise bad_pbn(after[0] if after else rows_after[0][0][1], b"PlayGap")


def judge_card(hand, card, trick, line, is_trick_left):
    """Takes the card out of declarer's or dummy's hand. A defender's hand isn't known here."""
    if hand is None:
        if not is_trick_left:
            raise bad_pbn(line, b"PlayNotHeld")
        return
    if card not in hand:
        raise bad_pbn(line, b"PlayNotHeld")
    if is_revoke(hand, card, trick):
        raise bad_pbn(line, b"PlayRevoke")
    hand.remove(card)


def is_revoke(hand, card, trick):
    led = trick[0][1] // 13 if trick else card // 13
    return card // 13 != led and any(it // 13 == led for it in hand)


# The moment after the plays.

class Moment:
    """Hands by seat (none for a defender whose hand isn't known), the trick as pairs of seat and card, its leader, and the need."""

    def __init__(self, board, left=None, right=None):
        self.hands = [set(board.hands[0]), left and set(left), set(board.hands[2]), right and set(right)]
        self.trump, self.need, self.leader, self.trick = board.trump, board.need, board.lead, []
        self.tricks = board.tricks

    def play(self, seat, card):
        if self.hands[seat] is not None:
            self.hands[seat].discard(card)
        self.trick.append((seat, card))
        if len(self.trick) == 4:
            self.leader = winner_of(self.trick, self.trump)
            self.need = max(0, self.need - (self.leader % 2 == 0))
            self.trick, self.tricks = [], self.tricks - 1

    def turn(self):
        return None if self.tricks == 0 else (self.leader + len(self.trick)) % 4

    def is_decided(self):
        return self.need == 0 or self.need > self.tricks


def moment_after(board, layout=(None, None)):
    moment = Moment(board, *layout)
    for seat, card in board.plays:
        moment.play(seat, card)
    return moment


# The layout file.

def contradiction(board, layout):
    """The number of the first card that a defender can't have played, and why; or none."""
    moment = Moment(board, *layout)
    for number, (seat, card) in enumerate(board.plays, 1):
        if seat % 2:
            if card not in moment.hands[seat]:
                return number, b"notheld"
            if is_revoke(moment.hands[seat], card, moment.trick):
                return number, b"revoke"
        moment.play(seat, card)
    return None


class Kept:
    def __init__(self):
        self.numbers, self.layouts, self.weights, self.dropped = [], [], [], []

    def version(self):
        return 1 if set(self.weights) == {1} else 2

    def weight(self, bits):
        """The weight of the layouts with a 1 together."""
        return sum(weight for weight, bit in zip(self.weights, bits) if bit == ord("1"))


WEIGHT = re.compile(rb"[ \t\r]*0*([0-9]*)")


def weight_of(line):
    """The weight of a layout and the rest of its line, or none if the weight is refused."""
    if line.lstrip(BLANKS)[:1] not in [b"%d" % digit for digit in range(10)]:
        return 1, line
    found = WEIGHT.match(line)
    digits, rest = found[1], line[found.end():]
    is_weight = 1 <= len(digits) <= 7 and int(digits) <= MOST_WEIGHT and rest[:1] and rest[:1] in BLANKS
    return (int(digits), rest) if is_weight else None


def layouts_of(text, board):
    def bad(line, name):
        return Refusal(5, b"layouts line %d: %s" % (line, name))

    unseen, listed = board.unseen, []
    for number, line in enumerate(text.split(b"\n"), 1):
        if not line.strip(BLANKS) or line.startswith(b"%"):
            continue
        if len(listed) == MOST_LAYOUTS:
            raise bad(number, b"TooMany")
        weighed = weight_of(line)
        if not weighed:
            raise bad(number, b"BadWeight")
        try:
            hands = deal_of(weighed[1])
        except DealFault as fault:
            raise bad(number, b"BadLine " + fault.args[0]) from fault
        hands = hands[board.declarer:] + hands[:board.declarer]
        if None in hands or hands[0] != board.hands[0] or hands[2] != board.hands[2]:
            raise bad(number, b"OtherHands")
        unseen = hands[1] | hands[3] if unseen is None else unseen
        if hands[1] | hands[3] != unseen:
            raise bad(number, b"OtherHands")
        listed.append((weighed[0], (hands[1], hands[3])))
    kept = Kept()
    for number, (weight, layout) in enumerate(listed, 1):
        against = contradiction(board, layout)
        if against:
            kept.dropped.append((number, *against))
        else:
            kept.numbers.append(number)
            kept.layouts.append(layout)
            kept.weights.append(weight)
    if not kept.numbers:
        raise Refusal(5, b"layouts: NoneLeft")
    return kept


# Texts.

def place(board, seat):
    return SEATS[(board.declarer + seat) % 4:][:1]


def head_text(board, kept, moves):
    now = moment_after(board)
    trick = b" ".join(name_of(card) for _, card in now.trick) or b"-"
    lines = [b"alphamu report %d" % kept.version(), b"declarer " + place(board, 0), b"trump " + [b"S", b"H", b"D", b"C", b"NT"][board.trump],
             b"need %d" % now.need, b"hand %s %s" % (place(board, 0), hand_text(now.hands[0])),
             b"hand %s %s" % (place(board, 2), hand_text(now.hands[2])),
             b"trick %s %s" % (place(board, now.leader), trick), b"turn " + place(board, now.turn()),
             b"moves %d" % moves, b"kept " + b" ".join(b"%d" % number for number in kept.numbers)]
    if kept.version() == 2:
        lines.append(b"weights " + b" ".join(b"%d" % weight for weight in kept.weights))
    lines += [b"dropped %d %s %d" % (number, cause, card) for number, card, cause in kept.dropped]
    return b"".join(line + b"\n" for line in lines)


def deal_text(board, layout):
    hands = [board.hands[0], layout[0], board.hands[2], layout[1]]
    return b"N:" + b" ".join(hand_text(hands[(at - board.declarer) % 4]) for at in range(4))


# Double dummy, and plain sampling.

def state_of(board, layout):
    now = moment_after(board, layout)
    return tuple(map(frozenset, now.hands)), tuple(now.trick), now.leader, now.need


def fusion_text(board, kept):
    states = [state_of(board, layout) for layout in kept.layouts]
    seat = moment_after(board).turn()
    rows = []
    for card in legal(states[0][0][seat], states[0][1]):
        bits = bits_text(makes(*after(*state, board.trump, seat, card), board.trump) for state in states)
        rows.append((card, bits))
    best = max(kept.weight(bits) for _, bits in rows)
    named = next(card for card, bits in rows if kept.weight(bits) == best)
    lines = [b"card %s vector %s %s %d" % (name_of(card), bits, WORDS[kept.version()], kept.weight(bits)) for card, bits in rows]
    return b"".join(line + b"\n" for line in [b"alphamu fusion %d" % kept.version(), *lines, b"named " + name_of(named)])


def bits_text(bits):
    return b"".join(b"1" if bit else b"0" for bit in bits)


# All layouts.

def held_by_play(board):
    """The unseen cards that the play gives to each defender; or none if no layout allows the play."""
    shown, others, moment = {1: set(), 3: set()}, {1: set(), 3: set()}, Moment(board)
    for seat, card in board.plays:
        if seat % 2:
            if card not in board.unseen or card in shown[seat]:
                return None
            led = moment.trick[0][1] // 13 if moment.trick else card // 13
            if card // 13 != led:
                # The other defender holds the rest of the suit that was led.
                others[4 - seat] |= {it for it in board.unseen - shown[seat] if it // 13 == led}
            shown[seat].add(card)
        moment.play(seat, card)
    must = {seat: shown[seat] | others[seat] for seat in shown}
    return None if must[1] & must[3] else must


def list_text(board):
    if board.unseen is None:
        raise Refusal(12, b"defenders not shown")
    must = held_by_play(board)
    free = sorted(board.unseen - must[1] - must[3]) if must else []
    wanted = board.tricks - len(must[1]) if must else -1
    count = math.comb(len(free), wanted) if wanted >= 0 else 0
    if not 1 <= count <= MOST_LAYOUTS:
        raise Refusal(12, b"%d layouts fit" % count)
    played = {card for _, card in board.plays}
    lefts = [must[1] | set(more) for more in itertools.combinations(free, wanted)]
    lefts.sort(key=lambda left: sorted(left - played))
    lines = [deal_text(board, (left, board.unseen - left)) for left in lefts]
    return b"".join(line + b"\n" for line in [b"% alphamu layouts 1", *lines])


# The report.

# Longer numbers are beyond every limit.
COUNT = rb"(0|[1-9][0-9]{0,19})"
A_CARD = rb"[SHDCshdc][2-9TJQKAtjqka]"
VERSION = re.compile(rb"alphamu report ([12])")
MOVES = re.compile(rb"moves " + COUNT)
FRONT = re.compile(rb"front " + COUNT)
VECTORS = {version: re.compile(b"vector ([01]{1,256}) %b %b" % (word, COUNT)) for version, word in WORDS.items()}
NODE = re.compile(rb"stop|play " + A_CARD + rb"|hear " + COUNT)
REPLY = re.compile(rb"on " + A_CARD)
LAST = {version: re.compile(b"card %b %b %b" % (A_CARD, word, COUNT)) for version, word in WORDS.items()}
MOST_WON = {1: MOST_LAYOUTS, 2: MOST_LAYOUTS * MOST_WEIGHT}
END = re.compile(rb"end")


class Lines:
    """Whole lines, read one after the other."""

    def __init__(self, text):
        self.all, self.at = text.split(b"\n")[:-1], 0

    def bad(self, name, line=None):
        return Refusal(11, b"report line %d: %s" % (line or self.at + 1, name))

    def take(self, form, name):
        """The next line, all of which must have this form."""
        found = form.fullmatch(self.all[self.at]) if self.at < len(self.all) else None
        if not found:
            raise self.bad(name)
        self.at += 1
        return found


def plan_of(lines, level=1):
    """A plan: nothing for a stop, a card and the plan after it, or a list of such pairs."""
    if level > MOST_LEVELS:
        raise lines.bad(b"TooDeep")
    found = lines.take(NODE, b"Plan")[0]
    if found == b"stop":
        return None
    if found.startswith(b"play "):
        return card_named(found[5:]), plan_of(lines, level + 1)
    if not 1 <= int(found[5:]) <= 52:
        lines.at -= 1
        raise lines.bad(b"Plan")
    replies = []
    for _ in range(int(found[5:])):
        card = card_named(lines.take(REPLY, b"Plan")[0][3:])
        replies.append((card, plan_of(lines, level + 1)))
    return replies


def report_of(text):
    """The head, the moves, and the bits of each vector with its weight and its plan."""
    every = text.split(b"\n")
    every = every if every[-1] else every[:-1]
    whole = text.count(b"\n")
    lines = Lines(text)
    version = int(lines.take(VERSION, b"Version")[1])
    front = next((at for at, line in enumerate(every) if line.startswith(b"front ")), None)
    if front is None:
        raise lines.bad(b"Head", len(every) + 1)
    moves = [int(it[1]) for it in map(MOVES.fullmatch, every[:front]) if it and 1 <= int(it[1]) <= 26]
    number = FRONT.fullmatch(every[front]) if front < whole else None
    if len(moves) != 1 or not number or not 1 <= int(number[1]) < 1 << 32:
        raise lines.bad(b"Head", front + 1)
    head = b"".join(line + b"\n" for line in every[:front])
    lines.at = front + 1
    entries = []
    for _ in range(int(number[1])):
        bits, won = lines.take(VECTORS[version], b"Vector").groups()
        if int(won) > MOST_WON[version] or version == 1 and int(won) != bits.count(b"1"):
            lines.at -= 1
            raise lines.bad(b"Vector")
        entries.append((bits, int(won), plan_of(lines)))
    if int(lines.take(LAST[version], b"Card")[1]) > MOST_WON[version]:
        lines.at -= 1
        raise lines.bad(b"Card")
    lines.take(END, b"End")
    if lines.at < len(every):
        raise lines.bad(b"End")
    return head, moves[0], entries


class Misfit(Exception):
    pass


class Judge:
    """One plan, walked from the root through its nodes in preorder."""

    def __init__(self, trump):
        self.trump, self.node = trump, 0

    def bits(self, plan, states, moves):
        """Whether the plan wins, for each state."""
        self.node += 1
        if moves == 0 or is_decided(states):
            self.demand(plan is None)
            return [makes(*state, self.trump) for state in states]
        cards = choices(states)
        if seat_to_play(states) % 2 == 0:
            self.demand(isinstance(plan, tuple) and plan[0] in cards)
            return self.bits(plan[1], child(states, plan[0], self.trump)[1], moves - 1)
        self.demand(isinstance(plan, list) and [card for card, _ in plan] == cards)
        won = [True] * len(states)
        for card, below in plan:
            able, states_after = child(states, card, self.trump)
            for at, bit in zip(able, self.bits(below, states_after, moves)):
                won[at] = won[at] and bit
        return won

    def demand(self, holds):
        if not holds:
            raise Misfit


def refuted(plan, line):
    return Refusal(1, b"plan %d: %s" % (plan, line))


def judge_head(board, kept, head, moves):
    if head != head_text(board, kept, moves):
        raise refuted(0, b"head differs")


def check_text(board, kept, report):
    head, moves, entries = report
    judge_head(board, kept, head, moves)
    states = [state_of(board, layout) for layout in kept.layouts]
    for number, (bits, won, plan) in enumerate(entries, 1):
        if len(bits) != len(states):
            raise refuted(number, b"width differs")
        if won != kept.weight(bits):
            raise refuted(number, b"weight differs")
        judge = Judge(board.trump)
        try:
            won = judge.bits(plan, states, moves)
        except Misfit as fault:
            raise refuted(number, b"not a strategy at node %d" % judge.node) from fault
        for layout, (bit, written) in enumerate(zip(won, bits), 1):
            if bit != (written == ord("1")):
                raise refuted(number, b"layout %d is %d" % (layout, bit))
    return b"alphamu check 1\nplans %d\ngood\n" % len(entries)


# The log.

def audit_text(board, kept, report, log):
    head, moves, entries = report
    try:
        lines = logs.lines_of(log)
    except logs.Fault as fault:
        raise Refusal(15, b"log file line %d" % fault.args) from fault
    judge_head(board, kept, head, moves)
    states = [state_of(board, layout) for layout in kept.layouts]
    vectors = [bits for bits, _, _ in entries]
    for number, bits in enumerate(vectors, 1):
        if len(bits) != len(states):
            raise refuted(number, b"width differs")
    number = logs.unproved(lines, states, moves, board.trump, vectors)
    if number:
        raise Refusal(16, b"log line %d not proved" % number)
    return b"alphamu audit 1\nlines %d\ncomplete\n" % len(lines)


# The words.

def ask_of(words):
    """The job and its options, or none if the words are refused."""
    options = jobs.options_in(words)
    return options and (options.pop("job"), options)


# The whole program.

def answer(words, files):
    """Status, standard output and standard error for words (bytes) and the files, by their names. The status is none if a
    search decides it."""
    try:
        words = [word.decode() for word in words]
    except UnicodeDecodeError:
        return 64, b"", b""
    try:
        asked = ask_of(words)
        if asked is None:
            raise Refusal(jobs.REFUSED, jobs.USAGE.encode())
        text = text_for(*asked, files)
    except Refusal as refusal:
        return refusal.answer
    return (None, None, None) if text is None else (0, text, b"")


def file_read(file, name, files):
    """The content of the file with this name, which is a deal, layouts, a report or a log."""
    if name not in files:
        raise Refusal(3, b"cannot read " + file.encode())
    if len(files[name]) > jobs.FILES[file]:
        raise Refusal(10, file.encode() + b" too long")
    return files[name]


def games_read(text):
    games = games_of(text)
    if not games:
        raise bad_pbn(1, b"NoGame")
    return games


def layouts_kept(text, board):
    """The kept layouts of a board. It must be declarer's or dummy's turn."""
    kept = layouts_of(text, board)
    turn = moment_after(board).turn()
    if turn is None or turn % 2:
        raise Refusal(6, b"no card to choose")
    return kept


def boards_refused(options, files):
    """The line of each game that `boards` refuses, by the game's number, and how many games there are."""
    games = games_read(file_read("deal", options["deal"], files))
    if len(games) > jobs.MOST_GAMES:
        raise Refusal(18, b"%d games" % len(games))
    texts = [file_read("layouts", f"{options['layouts']}.{number}", files) for number in range(1, len(games) + 1)]
    refused = {}
    for number, (game, text) in enumerate(zip(games, texts), 1):
        try:
            layouts_kept(text, board_of(game))
        except Refusal as refusal:
            refused[number] = refusal.answer[2].replace(b"alphamu:", b"refused", 1)
    return refused, len(games)


def boards_text(options, files):
    """The text of `boards`, or none if a game is searched."""
    refused, count = boards_refused(options, files)
    if len(refused) < count:
        return None
    return b"".join([b"alphamu boards 1\n", *(b"game %d\n%s" % it for it in refused.items()), b"end boards\n"])


def text_for(job, options, files):
    if job == "made":
        return None
    if job == "boards":
        return boards_text(options, files)
    given = {file: file_read(file, options[file], files) for file in jobs.FILES if file in options}
    board = board_of(games_read(given["deal"])[0])
    if job == "list":
        return list_text(board)
    kept = layouts_kept(given["layouts"], board)
    if job == "fusion":
        return fusion_text(board, kept)
    if job == "check":
        return check_text(board, kept, report_of(given["report"]))
    if job == "audit":
        return audit_text(board, kept, report_of(given["report"]), given["log"])
    if job == "match" and int(options["layout"]) not in kept.numbers:
        raise Refusal(14, b"no layout %d" % int(options["layout"]))
    return None
