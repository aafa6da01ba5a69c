"""Cards, tricks and double dummy for the second reading (reading.py, logs.py). Double dummy is plain minimax with a memo.

Cards are 0 to 51 in card order. Seats are numbered clockwise from declarer, who is 0. A state is the hands by seat, the trick as
pairs of seat and card, the trick's leader, and the need.
"""
import functools

SUITS = b"SHDC"
RANKS = b"23456789TJQKA"


def card_named(text):
    """The card that two letters name, or none."""
    if len(text) != 2 or text[0:1].upper() not in [bytes([it]) for it in SUITS] or text[1:2].upper() not in [
            bytes([it]) for it in RANKS]:
        return None
    return SUITS.index(text[0:1].upper()) * 13 + RANKS.index(text[1:2].upper())


def name_of(card):
    return bytes([SUITS[card // 13], RANKS[card % 13]])


def winner_of(trick, trump):
    """The seat that wins. If a card was played twice, the first counts as the higher."""
    led = trick[0][1] // 13
    suit = trump if any(card // 13 == trump for _, card in trick) else led
    best = max(card for _, card in trick if card // 13 == suit)
    return next(seat for seat, card in trick if card == best)


def legal(hand, trick):
    led = [card for card in hand if trick and card // 13 == trick[0][1] // 13]
    return sorted(led or hand)


@functools.lru_cache(maxsize=200000)
def makes(hands, trick, leader, need, trump):
    if need == 0 or not (trick or any(hands)):
        return need == 0
    if need > (max(len(hand) for hand in hands)):
        return False
    seat = (leader + len(trick)) % 4
    return (any if seat % 2 == 0 else all)(
        makes(*after(hands, trick, leader, need, trump, seat, card), trump) for card in legal(hands[seat], trick))


def after(hands, trick, leader, need, trump, seat, card):
    hands = tuple(hand - {card} if at == seat else hand for at, hand in enumerate(hands))
    trick = (*trick, (seat, card))
    if len(trick) == 4:
        leader = winner_of(trick, trump)
        need = max(0, need - (leader % 2 == 0))
        trick = ()
    return hands, trick, leader, need


# Nodes: one or more states that differ only in the defenders' hands.

def seat_to_play(states):
    _, trick, leader, _ = states[0]
    return (leader + len(trick)) % 4


def is_decided(states):
    hands, _, _, need = states[0]
    return need == 0 or need > max(map(len, hands))


def choices(states):
    """The cards that are legal in some state, in card order."""
    seat = seat_to_play(states)
    return sorted({card for state in states for card in legal(state[0][seat], state[1])})


def child(states, card, trump):
    """The numbers of the states in which the card is legal, and the states after it."""
    seat = seat_to_play(states)
    able = [at for at, state in enumerate(states) if card in legal(state[0][seat], state[1])]
    return able, [after(*states[at], trump, seat, card) for at in able]


def nodes_from(states, moves, trump, most):
    """How many nodes the tree has in which declarer's side has this many moves; if they are more than `most`, some number above it."""
    if moves == 0 or is_decided(states):
        return 1
    number, is_ours = 1, seat_to_play(states) % 2 == 0
    for card in choices(states):
        if number > most:
            break
        number += nodes_from(child(states, card, trump)[1], moves - is_ours, trump, most - number)
    return number


def may_be_spent(states, moves, trump, nodes):
    """Whether a search with this many moves may need more than these nodes after some card of the root."""
    return any(nodes_from(child(states, card, trump)[1], moves - 1, trump, nodes) > nodes for card in choices(states))
