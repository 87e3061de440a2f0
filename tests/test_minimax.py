"""The Python package and ffoscores find what plain minimax finds in random positions."""
import itertools
from concurrent.futures import ProcessPoolExecutor, ThreadPoolExecutor

import pytest

from bench import player

from .support import SECONDS, built, ends
from .games import random_positions
from ffosolve import Answer, Kind, NoMove, Scoring, Solver, square_name

POSITIONS, DEEP = 2000, 40  # with at most 6 empty squares, and with 7 or 8


def solved(position):
    """Solves a position by plain minimax. Returns a list with an item for each Scoring, in order:
    (position, its Answer, [(name of a move, its score), ..])."""
    own, opp = position
    children = [(square, player.values(*player.after(own, opp, square)))
                for square in player.squares_in(player.moves(own, opp))]
    kind = Kind.MOVES if children else Kind.PASS if player.moves(opp, own) else Kind.OVER
    rows = []
    for scoring, score in enumerate(player.values(own, opp)):
        scores = [(square, -values[scoring]) for square, values in children]
        answer = Answer(score, kind, sum(square for square, it in scores if it == score))
        rows.append((position, answer, [(square_name(square.bit_length() - 1), it) for square, it in scores]))
    return rows


@pytest.fixture(scope="module")
def solved_rows():
    positions = random_positions(POSITIONS, range(7)) + random_positions(DEEP, (7, 8))
    with ProcessPoolExecutor() as pool:
        return list(zip(*pool.map(solved, positions, chunksize=20)))


def compare(scoring, row, number):
    """Asserts that a Solver's methods find what `row`, an item of what `solved` returns, says of a position; `play`
    must refuse illegal moves. `number` chooses the table's size, and a right or wrong claim for `confirm`."""
    position, wanted, scores = row
    legal, solver = player.moves(*position), Solver(scoring=scoring, entries=(0, 1, 64, 1024)[number % 4])
    claims = wanted, wanted._replace(score=wanted.score + number % 5), Answer(1000, 7, wanted.best ^ number)
    found = solver.solve(position), solver.confirm(position, claims[number % 3]), solver.moves(position)
    assert repr(found) == repr((wanted, wanted, legal)), row  # equal kinds may be a Kind and a plain number
    assert list(solver.move_scores(position).items()) == scores, row
    for square in range(64):
        if not legal >> square & 1:
            with pytest.raises(NoMove):
                solver.play(position, square)


@pytest.mark.parametrize("scoring", Scoring)
def test_python_finds_what_minimax_finds(solved_rows, scoring):
    rows = solved_rows[scoring]
    with ThreadPoolExecutor(8) as pool:
        compared = list(pool.map(compare, itertools.repeat(scoring), rows, itertools.count()))
    assert len(compared) == POSITIONS + DEEP
    positions, answers, scores = zip(*rows)
    solver = Solver(scoring=scoring, entries=1024)
    assert repr(solver.solve_all(positions)) == repr(list(answers))
    assert [list(it.items()) for it in solver.move_scores_all(positions)] == list(scores)


@pytest.mark.parametrize("scoring", Scoring)
def test_ffoscores_and_scored_line_find_what_minimax_finds(solved_rows, scoring):
    asked = wanted = found = ""
    for position, answer, scores in solved_rows[scoring]:
        moves = sorted(scores, key=lambda it: -it[1]) or [(("", "PS", "--")[answer.kind], answer.score)]
        asked += f"{position.to_obf()}\n"
        wanted += position.to_obf() + "".join(f" {name}:{score:+03};" for name, score in moves) + "\n"
        found += Solver(scoring=scoring).scored_line(position) + "\n"
    assert found == wanted
    for entries in (0, 65_536):
        words = "--scoring", scoring.name.lower(), "--table", entries
        ends((0, wanted, ""), built("ffoscores"), *words, input=asked, timeout=5 * SECONDS)
