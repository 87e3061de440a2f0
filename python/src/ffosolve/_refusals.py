"""The errors of refused calls, which change nothing, and of refused lines. `Position.from_obf` explains OBF text."""
import copyreg
import enum
import reprlib
from typing import Any, Dict, Optional, Tuple, Type

from ._library import MOST_EMPTIES, MOST_ENTRIES

WRONG_MASK = "a mask is a whole number from 0 to 2**64 - 1"
REFUSALS: Dict[int, Type["Refused"]] = {}  # the class of each status


class Status(enum.IntEnum):
    """The statuses that calls of the library return. In ffosolve.h, each name begins with FFOSOLVE_."""

    DONE = 0
    UNKNOWN_SCORING = 1
    TOO_MANY_ENTRIES = 2
    UNEQUAL_LENGTHS = 3
    SHARED_SQUARE = 4
    TOO_MANY_EMPTIES = 5
    NO_MOVE = 6
    NO_MEMORY = 7
    SKIPPED = 8
    SHORT_BOARD = 9
    BAD_SQUARE = 10
    BAD_SIDE = 11
    UNKNOWN_SYMMETRY = 12


class Refused(Exception):
    """A call or a line was refused. If a position of a list was the reason, `index` is its index, from 0; else None."""

    status: int  # a Status, except for an OtherRefusal
    reason: str

    def __init_subclass__(cls, status: Optional[Status] = None, reason: str = "") -> None:
        if status is not None:
            cls.status, cls.reason = status, reason
            REFUSALS[status] = cls

    def __init__(self, index: Optional[int] = None, reason: Optional[str] = None) -> None:
        self.reason = self.reason if reason is None else reason
        super().__init__(self.reason if index is None else f"position at index {index}: {self.reason}")
        self.index = index

    def __reduce__(self) -> Tuple[Any, ...]:
        """Pickles all attributes, since `args` does not hold them all."""
        return copyreg.__newobj__, (type(self), *self.args), vars(self)  # type: ignore[attr-defined]


class UnknownScoring(Refused, ValueError, status=Status.UNKNOWN_SCORING, reason="no scoring has the number"):
    """The scoring is neither a Scoring nor the number or name of one."""


class TooManyEntries(Refused, ValueError, status=Status.TOO_MANY_ENTRIES,
                     reason=f"more than {MOST_ENTRIES} table entries"):
    """The table would have more than MOST_ENTRIES entries."""


class UnequalLengths(Refused, ValueError, status=Status.UNEQUAL_LENGTHS, reason="not as many answers as positions"):
    """The array for the answers is longer or shorter than that of the positions. A Solver never raises this."""


class SharedSquare(Refused, ValueError, status=Status.SHARED_SQUARE, reason="the masks share a square"):
    """A square is in both masks, as if each side had a disc on it."""


class TooManyEmpties(Refused, ValueError, status=Status.TOO_MANY_EMPTIES,
                     reason=f"more than {MOST_EMPTIES} empty squares"):
    """The position has more empty squares than the Solver takes or, for `Position.score`, more than MOST_EMPTIES."""


class NoMove(Refused, ValueError, status=Status.NO_MOVE, reason="illegal move"):
    """The move is illegal or, for `play_all`, a word that names no square. The message of an illegal move ends with the
    board and the side to move, as an OBF line."""


class NoMemory(Refused, MemoryError, status=Status.NO_MEMORY, reason="out of memory"):
    """There is not enough memory for a table, unless it has 0 entries, or for reading a line of OBF text."""


class OtherRefusal(Refused):
    """The library returned a status that this package does not know, since the library is newer than the package."""

    def __init__(self, status: int) -> None:
        self.status, self.reason = status, f"refused with status {status}"
        super().__init__()


class LineRefused(Refused, ValueError):
    """A line of OBF text was refused. `line` is its number, from 1, or None if the line was read alone. `at` is
    `column` for BadSquare and BadSide, how many squares the line has for ShortBoard, and 0 for NoPosition."""

    def __init__(self, at: int = 0, line: Optional[int] = None) -> None:
        self.at, self.line, self.reason = at, line, self.reason.format(at)
        super().__init__()
        if line is not None:
            self.args = (f"line {line}: {self.reason}",)

    @property
    def column(self) -> Optional[int]:
        """Where the wrong byte or the line's end is, counted in bytes from 1; None except for BadSquare and BadSide."""
        return self.at if self.status in (Status.BAD_SQUARE, Status.BAD_SIDE) else None


class NoPosition(LineRefused, status=Status.SKIPPED, reason="no position: the line is blank or a comment"):
    """The line is blank or a comment. `read_lines` and `parse_lines` skip it."""


class ShortBoard(LineRefused, status=Status.SHORT_BOARD, reason="board has {} of 64 squares"):
    """The line ends before its 64th square."""


class BadSquare(LineRefused, status=Status.BAD_SQUARE, reason="bad square at column {}"):
    """A byte in the place of a square does not stand for a disc or an empty square."""


class BadSide(LineRefused, status=Status.BAD_SIDE, reason="bad side at column {}"):
    """The side to move is missing: another byte is in its place, or the line ends."""


class UnknownSymmetry(Refused, ValueError, status=Status.UNKNOWN_SYMMETRY, reason="no symmetry has the number"):
    """The number of a symmetry is not from 0 to 7."""


def checked_number(name: str, value: int, least: int) -> int:
    """Returns `value`. Raises TypeError unless it is a whole number, and ValueError if it is less than `least`."""
    if not hasattr(value, "__index__"):
        raise TypeError(f"{name} is a whole number, not {reprlib.repr(value)}")
    if value < least:
        raise ValueError(f"{name} is at least {least}, not {value}")
    return value
