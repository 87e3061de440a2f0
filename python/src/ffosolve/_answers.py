"""Scorings, and the answer for a position. A mask is a set of squares as a number: A1 is bit 0, .. H8 is bit 63."""
import enum
from typing import List, NamedTuple

from ._refusals import UnknownScoring
from ._squares import square_names


class Named(enum.IntEnum):
    """A number that prints as its name in lower case."""

    def __str__(self) -> str:
        return self.name.lower()

    def __format__(self, form: str) -> str:
        return format(str(self), form)


class Scoring(Named):
    """How the end of a game is scored for the side to move. DISCS: own discs minus the other side's. WINNER: the same,
    but the winner also gets the empty squares. SIGN: 1, 0 or -1 for a win, a draw or a loss. `Scoring("winner")` is
    Scoring.WINNER; a name or number of none raises UnknownScoring."""

    WINNER = 0
    DISCS = 1
    SIGN = 2

    @classmethod
    def _missing_(cls, value: object) -> "Scoring":
        if isinstance(value, str) and value.upper() in cls.__members__:
            return cls[value.upper()]
        raise UnknownScoring(reason=f"a scoring is 'winner', 'discs' or 'sign', not {value!r}")


class Kind(Named):
    """How the side to move reaches its score: MOVES, by a move; PASS, by a pass, since only the other side has a legal
    move; or OVER, since neither side has one."""

    MOVES = 0
    PASS = 1
    OVER = 2


ENDS = {Kind.PASS: "PS", Kind.OVER: "--"}


class Answer(NamedTuple):
    """The score of a position for the side to move, -64 to 64; how it gets that score; and the mask of all best moves,
    0 if `kind` is PASS or OVER. Prints as `+62 A1,H1`, for a pass as `-04 PS`, for a finished game as `+32 --`."""

    score: int
    kind: Kind
    best: int

    @property
    def squares(self) -> List[str]:
        """The names of the best moves, in the order A1, B1, .. H8."""
        return square_names(self.best)

    def __str__(self) -> str:
        return f"{self.score:+03} {','.join(self.squares) or ENDS.get(self.kind, '')}"

    def __format__(self, form: str) -> str:
        return format(str(self), form)
