"""The Solver, which calls the shared library. A mask is a set of squares as a number: A1 is bit 0, .. H8 is bit 63."""
import bisect
import operator
import os
import reprlib
import struct
from typing import Any, Callable, Dict, Iterable, Iterator, List, Optional, Tuple, Union, overload

from ._answers import ENDS, Answer, Kind, Scoring
from ._arrays import Answers, batches_in, rows_of
from ._bulk import Batch, BatchOrRefusal, batches_of, in_order
from ._games import Game, positions_of
from ._library import MOST_EMPTIES, MOST_ENTRIES, NO_SCORE, CAnswer, CMoveScores, load, version_of
from ._positions import P, Position
from ._processes import ALL_SQUARES, Seconds, SolverCall, T, Count, threads_of
from ._refusals import Refused, TooManyEntries, checked_number
from ._squares import NAMES, accept, c_positions, checked_position, masks_and_empties, moves

Positions = Iterable[Position]
KINDS = tuple(Kind)
ANSWER, MOVE_SCORES = struct.Struct("iiQ"), struct.Struct("64bQ")  # the layouts of CAnswer and CMoveScores


def table_entries(empties: int) -> int:
    """A suitable number of table entries, of 32 bytes each, for positions with `empties` empty squares. The size of a
    table changes how long an answer takes, never the answer."""
    return (0, 4_096, 65_536, 1_000_000)[bisect.bisect_left((10, 14, 22), empties)]


class Solver:
    """Solves positions under a scoring. Keeps no results between calls. Several threads may use one Solver at once. It
    can be pickled, as for a pool of processes. A call ends with TimedOut if it takes more than `timeout` seconds;
    `help(ffosolve)` says what else stops it, and what a call does that can't be stopped.

    `library` is the path of the shared library. By default, it is the path in the environment variable FFOSOLVE_LIBRARY
    or, if that is empty or not set, the first library that fits: in this package, in the system's library folders, in
    `lib` of the virtual environment or Python, or in /usr/local/lib. `scoring` is a Scoring, its number, or its name
    such as "winner". `entries` is the size of the table, 0 to MOST_ENTRIES; by default, `table_entries` chooses it by
    the empty squares. A position with more than `max_empties` empty squares, 0 to MOST_EMPTIES, is refused, since it
    might take hopelessly long. Raises LibraryNotFound, UnknownScoring, TooManyEntries, ValueError and TypeError."""

    def __init__(self, library: Union[str, "os.PathLike[str]", None] = None, *,
                 scoring: Union[Scoring, int, str] = Scoring.WINNER, entries: Optional[int] = None,
                 max_empties: int = 20) -> None:
        if library is not None and not isinstance(library, (str, os.PathLike)):
            raise TypeError(f"a library is named by its path, not {library!r}; maybe Solver(max_empties={library!r})?")
        if entries is not None and checked_number("entries", entries, 0) > MOST_ENTRIES:
            raise TooManyEntries()
        if checked_number("max_empties", max_empties, 0) > MOST_EMPTIES:
            raise ValueError(f"max_empties is at most {MOST_EMPTIES}, not {max_empties}")
        self._path = None if library is None else os.path.abspath(library)
        self._scoring = Scoring(scoring)  # type: ignore[arg-type]
        self._entries = entries
        self._max_empties = max_empties
        self._library = load(library)

    def __repr__(self) -> str:
        library = "" if self._path is None else f"{self._path!r}, "
        entries = "" if self._entries is None else f"entries={self._entries}, "
        return f"{type(self).__name__}({library}scoring='{self._scoring}', {entries}max_empties={self._max_empties})"

    def __getstate__(self) -> Dict[str, Any]:
        return {name: value for name, value in vars(self).items() if name != "_library"}

    def __setstate__(self, state: Dict[str, Any]) -> None:
        vars(self).update(state)
        self._library = load(self._path)

    @property
    def scoring(self) -> Scoring:
        """How this Solver scores the end of a game."""
        return self._scoring

    @property
    def max_empties(self) -> int:
        """The greatest number of empty squares in a position that this Solver solves."""
        return self._max_empties

    @property
    def library_version(self) -> str:
        """The version of the shared library, such as "1.2.3"."""
        return version_of(self._library)

    def solve(self, position: Position, *, threads: Count = 1, timeout: Seconds = None) -> Answer:
        """The answer for a position. From 16 empty squares on, several threads search it together. Raises SharedSquare,
        TooManyEmpties and NoMemory, ValueError for a mask outside 0 to 2**64 - 1, TypeError for what is no position."""
        return self._answers(self._call(timeout, threads), self._batch(position))[0]

    def confirm(self, position: Position, claim: Answer, *, threads: Count = 1, timeout: Seconds = None) -> Answer:
        """The answer for a position, found by testing the claimed score first; the answer is exact even if the claim is
        wrong. If most claimed scores are right, this is faster than `solve` from 6 empty squares on. Raises the same as
        `solve`, and TypeError for a claim that is not an Answer."""
        if not isinstance(claim, Answer):
            raise TypeError(f"a claim is an Answer(score, kind, best), not {reprlib.repr(claim)}")
        return self._answers(self._call(timeout, threads), self._batch(position), CAnswer(*claim))[0]

    def best_line(self, position: Position, *, threads: Count = 1, timeout: Seconds = None) -> List[Tuple[str, int]]:
        """Perfect play from a position to the end of the game: each move and its score for the side that makes it, such
        as [("H1", 62), ("PS", -62), ("A1", 62)]. Of best moves, it has the first. Raises the same as `solve`."""
        call, line = self._call(timeout, threads), []
        answer = self._answers(call, self._batch(position))[0]
        while answer.kind != Kind.OVER:
            move = answer.squares[0] if answer.best else ENDS[answer.kind]
            line.append((move, answer.score))
            position = self.play(position, move)
            answer = self._answers(call, self._batch(position), CAnswer(-answer.score))[0]
        return line

    def move_scores(self, position: Position, *, threads: Count = 1, timeout: Seconds = None) -> Dict[str, int]:
        """Returns {square's name: score for the side to move} for all legal moves, in the order A1, B1, .. H8. The dict
        is empty if there is no legal move. One table serves all moves. Raises the same as `solve`."""
        return self._scores(self._call(timeout, threads), self._batch(position))[0]

    def scored_line(self, position: Position, *, threads: Count = 1, timeout: Seconds = None) -> str:
        """The line that `ffoscores` prints for a position: an OBF line that lists all legal moves with their scores,
        the best ones first; or a pass, or the end of the game, with its score. Raises the same as `solve`."""
        call, batch = self._call(timeout, threads), self._batch(position)
        moves = sorted(self._scores(call, batch)[0].items(), key=lambda it: -it[1])
        if not moves:
            (answer,) = self._answers(call, batch)
            moves = [(ENDS[answer.kind], answer.score)]
        return as_position(position).to_obf(moves=moves)

    @overload
    def solve_all(self, positions: Positions, *, threads: Count = 1, timeout: Seconds = None) -> List[Answer]: ...

    @overload
    def solve_all(self, positions: Positions, *, threads: Count = 1, timeout: Seconds = None, each: Seconds
                  ) -> List[Optional[Answer]]: ...

    def solve_all(self, positions: Positions, *, threads: Count = 1, timeout: Seconds = None, each: Seconds = None
                  ) -> List[Any]:
        """The answers for positions, in their order. The threads share a table for up to 15,000 positions; those with
        at most 14 empty squares may be solved in batches, each with its own table. With `each` or `timeout`, tables are
        for fewer. Raises the same as `solve`, and TimedOut. SharedSquare and TooManyEmpties come before any position is
        solved, and have the first refused one's `index`."""
        return self._all(self._answers, positions, threads, timeout, each)

    @overload
    def solve_iter(self, positions: Positions, *, threads: Count = 1, timeout: Seconds = None
                   ) -> Iterator[Answer]: ...

    @overload
    def solve_iter(self, positions: Positions, *, threads: Count = 1, timeout: Seconds = None, each: Seconds
                   ) -> Iterator[Optional[Answer]]: ...

    def solve_iter(self, positions: Positions, *, threads: Count = 1, timeout: Seconds = None, each: Seconds = None
                   ) -> Iterator[Any]:
        """Yields the answers for positions, in their order, and reads only some positions ahead. Raises the same as
        `solve`. SharedSquare and TooManyEmpties have the `index` of the refused position, and come after the answers
        for the positions before it; so does TimedOut, `timeout` seconds after the call."""
        return self._iter(self._answers, positions, threads, timeout, each)

    @overload
    def move_scores_all(self, positions: Positions, *, threads: Count = 1, timeout: Seconds = None
                        ) -> List[Dict[str, int]]: ...

    @overload
    def move_scores_all(self, positions: Positions, *, threads: Count = 1, timeout: Seconds = None, each: Seconds
                        ) -> List[Optional[Dict[str, int]]]: ...

    def move_scores_all(self, positions: Positions, *, threads: Count = 1, timeout: Seconds = None,
                        each: Seconds = None) -> List[Any]:
        """What `move_scores` returns for each position, in the same order; tables and errors are as for `solve_all`."""
        return self._all(self._scores, positions, threads, timeout, each)

    @overload
    def move_scores_iter(self, positions: Positions, *, threads: Count = 1, timeout: Seconds = None
                         ) -> Iterator[Dict[str, int]]: ...

    @overload
    def move_scores_iter(self, positions: Positions, *, threads: Count = 1, timeout: Seconds = None, each: Seconds
                         ) -> Iterator[Optional[Dict[str, int]]]: ...

    def move_scores_iter(self, positions: Positions, *, threads: Count = 1, timeout: Seconds = None,
                         each: Seconds = None) -> Iterator[Any]:
        """Yields what `move_scores` returns for each position, in the way that `solve_iter` yields answers."""
        return self._iter(self._scores, positions, threads, timeout, each)

    def solve_arrays(self, own: Any, opp: Any, *, threads: Count = 1, timeout: Seconds = None, each: Seconds = None
                     ) -> Answers:
        """The answers for positions in arrays of uint64, as `masks_of` returns them: `own`, the masks of the discs of
        the side to move, and `opp`, those of the other side. Returns three arrays of that length: `score` and `kind` of
        int32, `best` of uint64. Needs NumPy. Raises as `solve_all`, and TypeError and ValueError for other arrays."""
        return self._in_arrays("ffosolve_solve_all", CAnswer, own, opp, threads, timeout, each, Answers._make)

    def move_scores_arrays(self, own: Any, opp: Any, *, threads: Count = 1, timeout: Seconds = None,
                           each: Seconds = None) -> Any:
        """The scores of all moves: an array of int8 with a row of 64 scores for each position, in the order A1, B1, ..
        H8, with NO_SCORE for an illegal move. Takes, needs and raises the same as `solve_arrays`."""
        first = operator.itemgetter(0)
        return self._in_arrays("ffosolve_move_scores_all", CMoveScores, own, opp, threads, timeout, each, first)

    def moves(self, position: Position) -> int:
        """The mask of legal moves; `Position.legal_moves` names them. Raises SharedSquare, ValueError and TypeError."""
        return moves(position)

    def play(self, position: P, square: Union[int, str]) -> P:
        """Returns and raises what `Position.play` does. `position` may also be a tuple of two masks."""
        return as_position(position).play(square)

    def positions(self, game: Union[Game, str]) -> List[Position]:
        """The positions of a Game or transcript: the start, then that after each move but passes. At index n, it has n
        empty squares fewer. Raises GameRefused for a game that can't be read or played, and TypeError for others."""
        game = Game.of_text(game) if isinstance(game, str) else game
        if not isinstance(game, Game):
            raise TypeError(f"a game is a Game or the text of a transcript, not {reprlib.repr(game)}")
        return positions_of(game)

    def _call(self, timeout: Seconds, threads: Count = 1, each: Seconds = None, keeps: bool = False) -> SolverCall:
        return SolverCall(self._library, timeout, threads, each, keeps)

    def _batch(self, position: Iterable[int]) -> Batch:
        """Returns a Batch with one position, or raises SharedSquare, TooManyEmpties, TypeError or ValueError."""
        own, opp, empties = checked_position(position, self._max_empties)
        return Batch(c_positions([own, opp]), empties)

    def _all(self, solve: Callable[[SolverCall, BatchOrRefusal], List[Any]], positions: Positions, threads: Count,
             timeout: Seconds, each: Seconds) -> List[Any]:
        """What `solve` finds for positions. First reads all, and raises a Refused if one is. Raises TimedOut."""
        call = self._call(timeout, threads, each, keeps=True)
        batches = list(batches_of(positions, self._max_empties, call, True))
        found = list(in_order(call, lambda batch: solve(call, batch), batches, call.threads))
        return call.kept(found, len(found))

    def _iter(self, solve: Callable[[SolverCall, BatchOrRefusal], List[Any]], positions: Positions, threads: Count,
              timeout: Seconds, each: Seconds) -> Iterator[Any]:
        """Yields what `solve` finds for positions."""
        call = self._call(timeout, 1, each)
        batches = batches_of(positions, self._max_empties, call, False)
        return in_order(call, lambda batch: solve(call, batch), batches, threads_of(threads))

    def _in_arrays(self, name: str, record: Any, own: Any, opp: Any, threads: Count, timeout: Seconds, each: Seconds,
                   form: Callable[[List[Any]], T]) -> T:
        """Makes a call as `_found`, for arrays of positions. Returns the `form` of an array for each member of
        `record`. Raises TimedOut."""
        import numpy
        call = self._call(timeout, threads, each, keeps=True)
        batches = batches_in(rows_of(own, opp), self._max_empties, call)
        parts = in_order(call, lambda it: [bytes(self._found(call, it, name, record))], batches, call.threads)
        found: Any = numpy.frombuffer(bytearray().join(parts), record)
        return call.kept(form([numpy.ascontiguousarray(found[field]) for field, _ in record._fields_]), len(found))

    def _answers(self, call: SolverCall, batch: BatchOrRefusal, *claim: CAnswer) -> List[Answer]:
        """The answer for each position of a batch, but None for one that took too long."""
        name = "ffosolve_confirm" if claim else "ffosolve_solve_all"
        rows = ANSWER.iter_unpack(self._found(call, batch, name, CAnswer, *claim))
        found: List[Any] = [None if score == NO_SCORE else Answer(score, KINDS[kind], best)
                            for score, kind, best in rows]
        return found

    def _scores(self, call: SolverCall, batch: BatchOrRefusal) -> List[Dict[str, int]]:
        """What `move_scores` returns for each position of a batch, but None for one that took too long."""
        rows = MOVE_SCORES.iter_unpack(self._found(call, batch, "ffosolve_move_scores_all", CMoveScores))
        found: List[Any] = [None if row[64] == ALL_SQUARES else
                            {name: score for name, score in zip(NAMES, row) if score != NO_SCORE} for row in rows]
        return found

    def _found(self, call: SolverCall, batch: BatchOrRefusal, name: str, record: Any, *claim: CAnswer) -> Any:
        """Returns the array that the call `name` of the library writes: a `record` (a C structure) for each position of
        `batch`. Raises `batch` if it is a Refused, and another if the library refuses the call."""
        if isinstance(batch, Refused):
            raise batch
        found = (record * len(batch.positions))(*claim)
        entries = table_entries(batch.empties) if self._entries is None else self._entries
        accept(call.search(batch.empties, name, self._scoring, entries, batch.positions, found))
        return found


def as_position(position: P) -> P:
    return position if isinstance(position, Position) else Position(*masks_and_empties(position)[:2])
