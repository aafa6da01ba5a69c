"""What declarer's side is sure to win, by the definition on docs/definitions/bracket.md: all lines of play, with each choice of a layout
where their moves are used up. For endings of a few tricks. Cards, seats and states are those of playing.py.
"""
import functools

import playing


def tops_in(own, partners, unseen, suit):
    """How many of the hand's cards of a suit, from the top, are high against partner and against all unseen cards."""
    def of_suit(cards):
        return [card for card in cards if card // 13 == suit]

    def high(theirs):
        above = [card for card in of_suit(own) if all(card > other for other in theirs)]
        return len(of_suit(own)) if len(above) >= len(theirs) else len(above)
    return min(high(of_suit(partners)), high(of_suit(unseen)))


def is_sure(states, trump):
    """Whether declarer's side is on lead to a new trick and holds as many sure top cards as it needs tricks."""
    hands, trick, leader, need = states[0]
    if trick or leader % 2:
        return False
    own, partners, unseen = hands[leader], hands[(leader + 2) % 4], hands[1] | hands[3]
    drawn = tops_in(own, partners, unseen, trump) if trump < 4 else 0
    ruffed = any(sum(card // 13 == trump for card in cards) > drawn for cards in (partners, unseen))
    return need <= sum(tops_in(own, partners, unseen, suit) for suit in range(4) if suit == trump or not ruffed)


@functools.lru_cache(maxsize=None)
def secured(states, moves, trump):
    """For each line with this many moves, the layouts that it secures: a set of vectors. No vector is left out for another."""
    made = tuple(playing.makes(*state, trump) for state in states)
    vectors = set()
    if playing.is_decided(states) or is_sure(states, trump):
        vectors.add(made)
    if moves == 0:
        return vectors | {tuple(it == chosen and bit for it, bit in zip(states, made)) for chosen in states}
    if playing.is_decided(states):
        return vectors
    if playing.seat_to_play(states) % 2 == 0:
        for card in playing.choices(states):
            vectors |= secured(tuple(playing.child(states, card, trump)[1]), moves - 1, trump)
        return vectors
    joined = {(True,) * len(states)}
    for card in playing.choices(states):
        able, below = playing.child(states, card, trump)
        spread = [dict(zip(able, vector)) for vector in secured(tuple(below), moves, trump)]
        joined = {tuple(bit and part.get(at, True) for at, bit in enumerate(vector)) for vector in joined for part in spread}
    return vectors | joined


def least(states, weights, moves, trump):
    """The greatest weight of the layouts that one line secures."""
    return max(sum(weight for weight, bit in zip(weights, vector) if bit) for vector in secured(tuple(states), moves, trump))
