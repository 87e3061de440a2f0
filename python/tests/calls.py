"""Positions for tests, and the calls of a Solver by their names."""
import pytest

from ffosolve import Answer, Kind, Position, masks_of

CORNERS = "-OXXXXX-XXXXXXXOXXXXXXXXXXXXXXXXXXXOXXXXXXXXXXXXXXXXXXXXXXXXXXXX X; H1:+62; ps:-4;"
PASS = "-OOOOOOXXXXXXXXXXXXXXXXXXXXXXXXXXXXXXXXXXXXXXXXXXXXXXXXXXXXXXXXX O;"  # White has no move
END = "XXXXXXXXXXXXXXXXXXXXXXXXXXXXXXXX----------------OOOOOOOOOOOOOOOO X;"  # neither side has a move
POSITION, AT_PASS, OVER = map(Position.from_obf, (CORNERS, PASS, END))
ANSWER = Answer(62, Kind.MOVES, 0x80)  # for POSITION
PASSES = ["PS", "ps", "pass", "PASS", "pa", "--"]

SEARCHES = ["solve", "confirm", "move_scores", "best_line", "scored_line"]
ONE = [*SEARCHES, "moves", "play"]  # the calls for one position
ITERATORS = ["solve_iter", "move_scores_iter"]
LISTS = ["solve_all", "move_scores_all", "solve_arrays", "move_scores_arrays"]
MANY = [*ITERATORS, *LISTS]


def find(name, threads, solver, positions, **how):
    """Makes a call for positions or, if it is for one, for the last of them. Returns what it finds."""
    call, more = getattr(solver, name), {"confirm": [ANSWER], "play": ["A1"]}.get(name, [])
    if name in ONE:
        return call(positions[-1], *more, **how, **({"threads": threads} if name in SEARCHES else {}))
    if name.endswith("arrays"):
        pytest.importorskip("numpy")
        return list(call(*masks_of(positions), threads=threads, **how))
    return list(call(positions, threads=threads, **how))
