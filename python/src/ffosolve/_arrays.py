"""Positions and answers in arrays. Only the calls for arrays need NumPy, so each imports it itself."""
from typing import Any, Iterable, Iterator, List, NamedTuple, Tuple

from ._bulk import Batch, slices_of
from ._library import CPosition
from ._positions import Position
from ._processes import SolverCall
from ._squares import c_positions, checked_position, checked_positions, masks_and_empties


class Answers(NamedTuple):
    """The answers for many positions: three arrays of the same length, of int32, int32 and uint64. A position that took
    longer than `each` seconds has the score NO_SCORE, and otherwise 0."""

    score: Any
    kind: Any
    best: Any


def masks_of(positions: Iterable[Position]) -> Tuple[Any, Any]:
    """Returns (own, opp): arrays of uint64 with the masks of positions, as `Solver.solve_arrays` takes them. Raises
    ValueError for a mask outside 0 to 2**64 - 1, and TypeError for an object that is not a position."""
    import numpy
    listed = [mask for position in checked_positions(positions) for mask in masks_and_empties(position)[:2]]
    # To read the type of a ctypes array, NumPy runs Python code that takes an exception of a signal for a wrong type.
    masks = numpy.frombuffer(c_positions(listed), numpy.uint64).reshape(-1, 2)
    return masks[:, 0].copy(), masks[:, 1].copy()


def positions_from(own: Any, opp: Any, side: str = "X") -> List[Position]:
    """Returns the positions in arrays such as `masks_of` returns; `side` is to move in each. Raises TypeError and
    ValueError for other arrays, and ValueError for another side than "X" and "O"."""
    return [Position(mine, theirs, side) for mine, theirs in rows_of(own, opp).tolist()]


def rows_of(own: Any, opp: Any) -> Any:
    """Returns an array of rows, each laid out as a CPosition. Takes and refuses what `positions_from` does."""
    import numpy
    own, opp = numpy.asarray(own), numpy.asarray(opp)
    for masks in (own, opp):
        if masks.dtype != numpy.uint64:
            wanted = "the masks are arrays of uint64, as masks_of(positions) returns them"
            raise TypeError(f"{wanted}, not of {masks.dtype}")
    if own.ndim != 1 or own.shape != opp.shape:
        raise ValueError("the masks are two arrays of one dimension and of equal length")
    return numpy.stack((own, opp), axis=1)


def batches_in(rows: Any, max_empties: int, call: SolverCall) -> Iterator[Batch]:
    """Yields Batches of what `rows_of` returns. For the first refused position, raises what `checked_position` does."""
    import numpy
    own, opp = rows[:, 0], rows[:, 1]
    empties = 64 - numpy.unpackbits((own | opp).view(numpy.uint8)).reshape(-1, 64).sum(axis=1, dtype=numpy.int64)
    for index in numpy.flatnonzero((own & opp != 0) | (empties > max_empties)).tolist():
        checked_position(rows[index].tolist(), max_empties, index)
    for at, most in slices_of(empties.tolist(), call, True):
        yield Batch((CPosition * len(rows[at])).from_buffer(rows[at]), most)
