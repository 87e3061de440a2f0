"""The rules of Othello in plain code that shares nothing with the library, for lists of positions and for tests.

A position is two masks: the discs of the side to move, and those of the other side. A1 is bit 0, and H8 bit 63.
"""
import functools
import operator
import random

NOT_A, NOT_H, FULL = 0xFEFEFEFEFEFEFEFE, 0x7F7F7F7F7F7F7F7F, (1 << 64) - 1
# For each direction, the shifts to the left and to the right, one of them 0, and the squares that it can reach.
STEPS = ((1, 0, NOT_A), (0, 1, NOT_H), (8, 0, FULL), (0, 8, FULL),
         (9, 0, NOT_A), (0, 9, NOT_H), (7, 0, NOT_H), (0, 7, NOT_A))
START = (1 << 28 | 1 << 35, 1 << 27 | 1 << 36)


def runs(squares, opp):
    """Yields two masks for each direction: runs of `opp` that begin beside `squares`, and the squares after them."""
    for left, right, reached in STEPS:
        run, last = 0, squares
        while last := (last << left >> right) & reached & opp:
            run |= last
        yield run, (run << left >> right) & reached & ~opp


def moves(own, opp):
    """Returns the mask of the legal moves."""
    return functools.reduce(operator.or_, (beyond for _, beyond in runs(own, opp))) & ~own


def after(own, opp, square):
    """Returns the position after a move to `square`, a mask of one bit; the other side is then to move."""
    turned = sum(run for run, beyond in runs(square, opp) if beyond & own)
    return opp & ~turned, own | turned | square


def random_game(rng):
    """Yields (own, opp, whether Black is to move, last move) for each position of a random game. The last move is a
    mask of one bit, 0 for a pass, and None at the start."""
    own, opp, is_black, move = *START, True, None
    while True:
        yield own, opp, is_black, move
        can = list(squares_in(moves(own, opp)))
        if not can and not moves(opp, own):
            return
        move = rng.choice(can) if can else 0
        own, opp, is_black = *(after(own, opp, move) if can else (opp, own)), not is_black


def random_lines(number, least, most, seed=1):
    """Yields OBF lines of `number` positions, each from a random game of its own that is not over yet. The positions
    have `least` to `most` empty squares in turn, 1 to 60. The same arguments give the same lines."""
    rng, found = random.Random(seed), 0
    while found < number:
        empties = least + found % (most - least + 1)
        for own, opp, is_black, _ in random_game(rng):
            if (own | opp).bit_count() == 64 - empties and (moves(own, opp) or moves(opp, own)):
                yield line(own, opp, is_black)
                found += 1
                break


def squares_in(mask):
    while mask:
        yield mask & -mask
        mask &= mask - 1


def line(own, opp, is_black):
    black, white = (own, opp) if is_black else (opp, own)
    cells = ("X" if black >> at & 1 else "O" if white >> at & 1 else "-" for at in range(64))
    return f"{''.join(cells)} {'X' if is_black else 'O'};"


@functools.lru_cache(maxsize=None)
def values(own, opp):
    """Returns the minimax values of a position for the mover, under the scorings winner, discs and sign."""
    can = moves(own, opp)
    if can:
        return tuple(-min(of) for of in zip(*(values(*after(own, opp, square)) for square in squares_in(can))))
    if moves(opp, own):
        return tuple(-value for value in values(opp, own))
    more = own.bit_count() - opp.bit_count()
    sign = (more > 0) - (more < 0)
    return more + sign * (64 - (own | opp).bit_count()), more, sign
