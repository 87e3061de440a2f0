"""Exact answers for Othello endgames, by a solver whose answers are proved.

A Position knows the rules. It does not change: each move returns a new one.

    >>> from ffosolve import Position, Solver
    >>> Position.start().play("F5").legal_moves
    ['F4', 'D6', 'F6']
    >>> position = Position.from_obf("-OXXXXX-XXXXXXXOXXXXXXXXXXXXXXXXXXXOXXXXXXXXXXXXXXXXXXXXXXXXXXXX X;")

A Solver solves one position, or many. Scores are for the side to move.

    >>> solver = Solver()
    >>> print(solver.solve(position))
    +62 H1
    >>> solver.solve(position).squares
    ['H1']
    >>> solver.move_scores(position)
    {'A1': 52, 'H1': 62}
    >>> solver.best_line(position)
    [('H1', 62), ('PS', -62), ('A1', 62)]
    >>> [answer.score for answer in solver.solve_all([position, position.play("A1")], threads=2)]
    [62, -52]

By default, a Solver takes positions with up to 20 empty squares; `Solver(max_empties=24)` takes up to 24. A position
with two more empty squares takes some 2 to 20 times as long.

`read_lines("list.obf")` reads a file of lines such as `from_obf` reads, and `solver.scored_line(position)` writes one.
`read_games("WTH_2001.wtb")` reads games; `solver.positions(game)` has a game's positions, and `game.turns()` each move
with the position in which it is made, which is what a search for a player's mistakes needs. `compare_scores` compares
the scores of an evaluation with exact ones. With NumPy, `solver.solve_arrays(*masks_of(positions))` solves arrays.

`position.canonical()` is the same for all eight images of a position, as a book needs it, and
`position.canonical_symmetry.square("F5")` is the square that a move becomes there.

A notebook shows a position as a picture. `position.show(solver.move_scores(position))` adds the scores of its moves;
`position.show().save("board.svg")` writes the picture to a file.

These calls take `threads=N` and `timeout=SECONDS`: `compare_scores`, and of a Solver `solve`, `confirm`, `best_line`,
`move_scores`, `scored_line`, and those whose names end with `_all`, `_iter` or `_arrays`. Threads solve several
positions at once and, except for an iterator, a position with at least 16 empty squares together. `threads=None` stands
for all processors that Python may use; the default is 1.

The calls for many positions also take `each=SECONDS`: one that takes longer gets None or, in arrays, the score NO_SCORE
and otherwise 0, and the call goes on. The TimedOut after its `timeout` has what is solved.

A call stops at once if it is interrupted: by Ctrl-C, or another signal whose handler raises an exception; after its
`timeout` (TimedOut, a TimeoutError); if its iterator is closed; or if asyncio cancels the task that awaits
`ffosolve.to_thread(solver.solve, position)`. What awaits `asyncio.to_thread` or another pool of threads can be
cancelled, too, but the call goes on in its thread until its `timeout`, and `asyncio.run` waits for it.

Positions with more than 14 empty squares are solved by the programs `ffosolve` and `ffoscores`, which end when their
call stops, or with this program. They are those in the wheel, beside the library (`lib` and `bin`) or on the path, if
they have the library's version. If somebody else ends one, its call raises ChildProcessError. If there is none, or
while Python is ending, a call with `timeout` or `each` raises OSError, and one without is made in this process. Others,
unless they follow such a one in a list, are solved here, however small `each` is; a call ends within half a second
after its `timeout`.

The wheel that `make wheel` builds contains the shared library and the programs. Without that wheel, install ffosolve,
or name the library: `Solver("FOLDER/libffosolve.so")` or FFOSOLVE_LIBRARY. Reading, writing and showing positions needs
no library.

The classes and functions have a help of their own, such as `help(ffosolve.Position)`:

    positions    Position START Board Discs Symmetry square_name square_names square_number
    solving      Solver Answer Kind Scoring NO_SCORE MOST_EMPTIES MOST_ENTRIES table_entries to_thread
    files        read_lines parse_lines read_games Game compare_scores ScoreComparison WrongScore
    arrays       masks_of positions_from
    errors       Refused (of calls: NoMemory NoMove SharedSquare TooManyEmpties TooManyEntries UnequalLengths
                 UnknownScoring UnknownSymmetry OtherRefusal; of lines: LineRefused NoPosition ShortBoard BadSquare
                 BadSide), whose `status` is a Status; GameRefused LibraryNotFound ReadingWarning TimedOut"""
from typing import TYPE_CHECKING

from ._answers import Answer, Kind, Scoring
from ._arrays import masks_of, positions_from
from ._boards import Board
from ._games import Game, GameRefused, read_games
from ._library import MOST_EMPTIES, MOST_ENTRIES, NO_SCORE, LibraryNotFound
from ._positions import START, Discs, Position, parse_lines, read_lines
from ._processes import TimedOut, to_thread
from ._refusals import (
    BadSide, BadSquare, LineRefused, NoMemory, NoMove, NoPosition, OtherRefusal, Refused, SharedSquare, ShortBoard,
    Status, TooManyEmpties, TooManyEntries, UnequalLengths, UnknownScoring, UnknownSymmetry)
from ._score_comparison import ScoreComparison, WrongScore, compare_scores
from ._solvers import Solver, table_entries
from ._squares import Symmetry, square_name, square_number, square_names
from ._text import ReadingWarning

Line = Position  # what read_lines yields had this name in earlier versions

if TYPE_CHECKING:
    __version__: str
    # While Python runs, there is no __all__: `help` would show each class, with all that it inherits.
    __all__ = [
        "MOST_EMPTIES", "MOST_ENTRIES", "NO_SCORE", "START", "Answer", "BadSide", "BadSquare", "Board", "Discs", "Game",
        "GameRefused", "Kind", "LibraryNotFound", "LineRefused", "NoMemory", "NoMove", "NoPosition", "OtherRefusal",
        "Position", "ReadingWarning", "Refused", "ScoreComparison", "Scoring", "SharedSquare", "ShortBoard", "Solver",
        "Status", "Symmetry", "TimedOut", "TooManyEmpties", "TooManyEntries", "UnequalLengths", "UnknownScoring",
        "UnknownSymmetry", "WrongScore", "compare_scores", "masks_of", "parse_lines", "positions_from", "read_games",
        "read_lines", "square_name", "square_names", "square_number", "table_entries", "to_thread",
    ]
else:
    def __getattr__(name):
        """Finds `__version__` when it is first asked for, since that takes a while."""
        if name != "__version__":
            raise AttributeError(f"module {__name__!r} has no attribute {name!r}")
        from ._version import version
        return version()
