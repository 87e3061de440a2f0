"""Squares: A1 is number 0, B1 is 1, A2 is 8, H8 is 63. A mask is a set of squares as a number: bit n is square n. A
position is two masks, for which the shared library knows the rules."""
import array
import ctypes
import enum
import operator
import reprlib
from typing import Any, Callable, Iterable, List, Optional, Tuple, Union

from ._library import CPosition, loaded
from ._refusals import REFUSALS, WRONG_MASK, OtherRefusal, SharedSquare, Status, TooManyEmpties, UnknownSymmetry

NAMES = [column + row for row in "12345678" for column in "ABCDEFGH"]
# How many squares a mask has; `bit_count` came with Python 3.10.
size_of: Callable[[int], int] = getattr(int, "bit_count", lambda mask: bin(mask).count("1"))


def square_name(number: int) -> str:
    """The name of the square with a number from 0 to 63: "A1", "B1", .. "H8". Raises ValueError for another number."""
    if not 0 <= operator.index(number) < 64:
        raise ValueError(f"no square has the number {number}")
    return NAMES[number]


def square_number(name: str) -> int:
    """The number, 0 to 63, of the square with a name such as "F5" or "f5". Raises ValueError for any other name."""
    try:
        return NAMES.index(name.upper())
    except (AttributeError, ValueError):
        raise ValueError(f"no square has the name {name!r}") from None


def number_of(square: Union[int, str]) -> int:
    """The number of the square of that name; a number itself, even of no square. Raises ValueError and TypeError."""
    if not isinstance(square, str) and not hasattr(square, "__index__"):
        raise TypeError(f"a square is a name such as 'F5' or a number from 0 to 63, not {reprlib.repr(square)}")
    return square_number(square) if isinstance(square, str) else operator.index(square)


def square_of(square: Union[int, str]) -> int:
    """Returns what `number_of` does, but raises ValueError for a number that no square has."""
    number = number_of(square)
    square_name(number)
    return number


def mask_of(mask: int) -> int:
    """Returns a whole number, such as one of NumPy, as an int. Raises TypeError for another object."""
    try:
        return int(operator.index(mask))  # before Python 3.10, the index of True is True
    except TypeError:
        raise TypeError(f"{WRONG_MASK}, not {reprlib.repr(mask)}") from None


def checked_mask(mask: int) -> int:
    """Returns what `mask_of` does, but raises ValueError unless it is from 0 to 2**64 - 1."""
    mask = mask_of(mask)
    if mask >> 64:
        raise ValueError(f"{WRONG_MASK}, not {mask}")
    return mask


def square_names(mask: int) -> List[str]:
    """The names of the squares in a mask, in the order of their numbers. Raises ValueError for a wrong mask."""
    mask = checked_mask(mask)
    return [NAMES[number] for number in range(64) if mask >> number & 1]


def checked_positions(positions: Iterable[Iterable[int]]) -> Iterable[Iterable[int]]:
    """Returns `positions`. Raises TypeError for a single position, whose masks are no positions."""
    if hasattr(positions, "own"):
        raise TypeError("positions are a list or another iterable of positions, as [position], not a single one")
    return positions


def masks_and_empties(position: Iterable[int]) -> Tuple[int, int, int]:
    """The two masks of a position, and how many squares are empty. Raises TypeError for another object."""
    try:
        own, opp = position
        return own, opp, 64 - size_of(own | opp)
    except (TypeError, ValueError):
        form = "a position is two masks, as Position(own, opp) and Position.from_obf(line) return them"
        raise TypeError(f"{form}, not {reprlib.repr(position)}") from None


def checked_position(position: Iterable[int], most: int, index: Optional[int] = None) -> Tuple[int, int, int]:
    """What `masks_and_empties` returns. Raises SharedSquare and, for more than `most` empty squares, TooManyEmpties,
    with the position's `index` in a list; TypeError for another object; ValueError if it notices a wrong mask."""
    own, opp, empties = masks_and_empties(position)
    if own & opp or empties > most:
        c_position((own, opp))  # raises ValueError for a wrong mask
        if own & opp:
            raise SharedSquare(index)
        raise TooManyEmpties(index, f"{empties} empty squares are more than max_empties={most} of the Solver")
    return own, opp, empties


def c_position(position: Iterable[int]) -> CPosition:
    own, opp, _ = masks_and_empties(position)
    if (own | opp) >> 64:
        raise ValueError(WRONG_MASK)
    return CPosition(own, opp)


def c_positions(masks: List[int]) -> Any:
    """Returns an array of positions, given by the masks `own` and `opp` of each. Raises ValueError for a wrong mask."""
    try:
        return (CPosition * (len(masks) // 2)).from_buffer(array.array("Q", masks))
    except OverflowError:
        raise ValueError(WRONG_MASK) from None


def moves(position: Iterable[int]) -> int:
    """The mask of the legal moves. Raises SharedSquare."""
    found = ctypes.c_uint64()
    accept(loaded().ffosolve_moves(c_position(position), found))
    return found.value


def accept(status: int) -> None:
    """Raises the refusal that `status` stands for, or does nothing if it is DONE."""
    if status != Status.DONE:
        raise REFUSALS[status]() if status in REFUSALS else OtherRefusal(status)


class Symmetry(enum.IntEnum):
    """A symmetry of the board. It moves the square in column c and row r, both counted from 0, to the column and row:

        IDENTITY (c, r)        FLIP_COLUMNS (7 - c, r)    FLIP_ROWS (c, 7 - r)    HALF_TURN (7 - c, 7 - r)
        TRANSPOSE (r, c)       TURN_RIGHT (7 - r, c)      TURN_LEFT (r, 7 - c)    ANTI_TRANSPOSE (7 - r, 7 - c)

    `symmetry.square("F5")` is the name of the square to which it moves F5, `symmetry.mask(mask)` the mask to which it
    moves another, and `symmetry.inverse` the Symmetry that undoes it."""

    IDENTITY = 0
    FLIP_COLUMNS = 1
    FLIP_ROWS = 2
    HALF_TURN = 3
    TRANSPOSE = 4
    TURN_RIGHT = 5
    TURN_LEFT = 6
    ANTI_TRANSPOSE = 7

    @classmethod
    def _missing_(cls, value: object) -> "Symmetry":
        raise UnknownSymmetry(reason=f"a symmetry has a number from 0 to 7, not {value}")

    @property
    def inverse(self) -> "Symmetry":
        """The Symmetry that undoes this one."""
        return {Symmetry.TURN_RIGHT: Symmetry.TURN_LEFT, Symmetry.TURN_LEFT: Symmetry.TURN_RIGHT}.get(self, self)

    def square(self, square: Union[int, str]) -> str:
        """The name of the square to which a square moves. `square` is a name such as "F5" or a number, 0 to 63. A pass,
        "PS", and the end of a game, "--", stay. Raises ValueError for another name or number, TypeError for others."""
        if isinstance(square, str) and square.upper() in ("PS", "--"):
            return square.upper()
        return NAMES[self.mask(1 << square_of(square)).bit_length() - 1]

    def mask(self, mask: int) -> int:
        """The mask of the squares to which those of a mask move. Raises ValueError for a wrong mask, and TypeError."""
        found = ctypes.c_uint64()
        accept(loaded().ffosolve_image(checked_mask(mask), self, found))
        return found.value


def canonical_form(position: Iterable[int]) -> Tuple[int, int, Symmetry]:
    """The two masks of the canonical image of a position, and the first Symmetry that leads to it."""
    found, symmetry = CPosition(), ctypes.c_uint32()
    accept(loaded().ffosolve_canonical(c_position(position), found, symmetry))
    return found.own, found.opp, Symmetry(symmetry.value)
