"""Tests of the package ffosolve, installed or on PYTHONPATH, with the library that `Solver()` loads. They are run by
`python3 -m pytest python/tests`."""
import copy
import doctest
import gc
import inspect
import io
import itertools
import os
import pathlib
import pickle
import pydoc
import re
import tracemalloc
import xml.etree.ElementTree
from concurrent.futures import ProcessPoolExecutor
from functools import partial
from unittest import mock

import pytest

from calls import (
    ANSWER, AT_PASS, CORNERS, END, ITERATORS, LISTS, MANY, ONE, OVER, PASS, PASSES, POSITION, SEARCHES, find)
import ffosolve
from ffosolve import (
    START, Answer, Board, Game, GameRefused, Kind, NoMove, Position, Scoring, SharedSquare, Solver, Symmetry,
    TooManyEmpties, TooManyEntries, UnknownScoring, UnknownSymmetry, masks_of, parse_lines, read_lines, square_name,
    square_names, square_number)
from ffosolve._library import libraries_to_try, load, loaded, version_of

EIGHT = Position.from_obf("XOOOO-O-XOOO-OO-XOOOO-OXXXXXXXO-XXOXXXO-OOOOXOOOOXXXOOOOOX-XXXXO X;")  # 8 empty squares
SHARED, WIDE, WIDER = Position(3, 2), Position(1, 2**31 - 2), Position(1, 2**30 - 2)  # 33 and 34 empty squares
SHARES, MORE = "the masks share a square", "34 empty squares are more than max_empties=33 of the Solver"
MASK = "a mask is a whole number from 0 to 2**64 - 1"


def library_that_returns(status):
    """Returns a stand-in for the library that records calls. Functions for answers and moves return `status`."""
    names = ("confirm", "solve_all", "move_scores_all", "moves", "play")
    return mock.Mock(**{f"ffosolve_{name}.return_value": status for name in names})


def refused(error, call, *given):
    """Asserts that a call raises exactly `error`. Returns what it raises, and a pickled copy of that."""
    with pytest.raises(ffosolve.Refused) as caught:
        call(*given)
    assert type(caught.value) is error
    return caught.value, pickle.loads(pickle.dumps(caught.value))


def test_the_examples_of_the_help_print_what_it_shows():
    failed, attempted = doctest.testmod(ffosolve)
    assert (failed, attempted > 5) == (0, True)


def test_the_help_fits_on_some_pages_and_has_each_name_and_that_of_a_class_has_what_the_class_adds():
    text = pydoc.plain(pydoc.render_doc(ffosolve))
    names = {name for name, it in vars(ffosolve).items() if name[0] != "_" and not inspect.ismodule(it)}
    assert names - set(re.findall(r"\w+", ffosolve.__doc__)) == {"Line", "TYPE_CHECKING"}
    assert text.count("\n") < 120 and "inherited" not in text
    for it in filter(inspect.isclass, vars(ffosolve).values()):
        added = {name for name in vars(it) if name[0] != "_"}
        assert added <= {*re.findall(r"\w+", pydoc.plain(pydoc.render_doc(it)))} and it.__doc__, it


@pytest.mark.parametrize("scoring", Scoring)
@pytest.mark.parametrize("position", [POSITION, AT_PASS, OVER, EIGHT, EIGHT.passed()])
def test_the_best_line_is_of_best_moves_to_the_end_and_each_score_is_that_of_its_position(position, scoring):
    solver, at = Solver(scoring=scoring), position
    line = solver.best_line(position)
    for move, score in line:
        answer = solver.solve(at)
        assert (score, at.is_legal(move)) == (answer.score, True)
        assert move == (answer.squares[0] if answer.kind == Kind.MOVES else "PS")
        at = at.play(move)
    assert at.is_over and (not line) == position.is_over
    if line:
        assert at.score(scoring) == -line[-1][1]


@pytest.mark.parametrize("position, text", [
    (POSITION, " H1:+62; A1:+52;"), (POSITION.passed(), " H1:-40;"), (AT_PASS, " PS:-64;"), (OVER, " --:+32;")])
def test_a_scored_line_has_the_best_moves_first(position, text):
    for given in (position, tuple(position)):
        assert Solver().scored_line(given) == Position(*position, getattr(given, "side", "X")).to_obf() + text


def test_the_turns_of_a_game_are_the_positions_in_which_its_moves_are_made():
    """White has no move before E7."""
    at, turns = START, Game.of_text("f5f6d3g5h5h4f7h6e7").turns()
    for position, move in turns:
        assert position.to_obf() == (at.passed() if move == "E7" else at).to_obf()
        at = position.play(move)
    assert [move for _, move in turns] == "F5 F6 D3 G5 H5 H4 F7 H6 E7".split()
    assert Game(1).turns() == []


def test_the_example_of_turns_prints_the_moves_that_lose_discs(capsys):
    """The scores of the positions after D7 and the other moves are those of plain minimax."""
    game = Game.of_text("d3c5f6e3c4e6c6b7c7c2f3c3e2b4e7f2f1g2c1b3f5e1g3h3f4g1d2b1a1e8a8g6h2d1"
                        "a2h1b2g4b5a3g5a6a5c8d8b6f7d6h7h4h6h5a7h8d7b8g7f8a4g8")
    exec("if True:\n" + inspect.getdoc(Game.turns).split(":\n\n")[1], {"game": game, "solver": Solver(max_empties=6)})
    assert capsys.readouterr().out == "X D7 2 instead of 10\n"


def test_a_game_of_moves_without_words_has_squares():
    game = Game(1, moves=[37, 43, 64, 18])
    assert game.squares == ["F5", "D6", "C3"]
    assert Game(1, moves=[37, 43, 18]).turns() == Game.of_text("f5d6c3").turns()
    for move in (255, -1, 256 + 43, "D6"):
        with pytest.raises(GameRefused, match=rf"^game 1, move 2: {move!r} is not a square$"):
            Solver().positions(Game(1, moves=[37, move]))
        assert Game(1, moves=[37, move]).squares == ["F5", str(move)]


def test_positions_become_arrays_and_arrays_positions():
    numpy = pytest.importorskip("numpy")
    white = EIGHT.passed()
    positions = [POSITION, white, START, Position(2**64 - 1, 0), Position(0, 2**64 - 1), Position(2**63 + 1, 2**53 + 2)]
    own, opp = masks_of(iter(positions))
    assert (own.dtype, opp.dtype, own.shape, opp.shape) == (numpy.uint64, numpy.uint64, (6,), (6,))
    assert list(zip(own.tolist(), opp.tolist())) == positions
    back = ffosolve.positions_from(own, opp)
    assert (back, {position.side for position in back}) == (positions, {"X"})
    assert {position.side for position in ffosolve.positions_from(own, opp, "O")} == {"O"}
    for empty in ([], iter(())):
        assert ffosolve.positions_from(*masks_of(empty)) == []
    objects = numpy.array(positions)
    assert (objects.dtype, objects.shape, list(objects)) == (object, (6,), positions)
    assert Solver().solve(Position(own[0], opp[0])) == Solver().solve(POSITION)
    assert repr(Position(True, numpy.int8(2))) == "Position(own=1, opp=2)"
    with pytest.raises(TypeError, match="^a mask is a whole number from 0 to .*, not array"):
        Position(numpy.array(0.5), 2)


def test_arrays_that_numpy_rounds_are_refused_by_the_name_of_the_call_that_makes_exact_ones():
    numpy = pytest.importorskip("numpy")
    own, opp = numpy.array([tuple(POSITION), tuple(START)]).T
    why = r"^the masks are arrays of uint64, as masks_of\(positions\) returns them, not of "
    for wrong in (own, numpy.array([1, 2]), [1, 2]):
        for call in (Solver().solve_arrays, Solver().move_scores_arrays, ffosolve.positions_from):
            with pytest.raises(TypeError, match=why):
                call(wrong, opp)
    with pytest.raises(TypeError, match="^a position is two masks, "):
        masks_of([(own[0], opp[0])])


@pytest.mark.parametrize("settings, shown", [
    ({}, "scoring='winner', max_empties=20"),
    ({"scoring": "sign", "entries": 7, "max_empties": 9}, "scoring='sign', entries=7, max_empties=9"),
    ({"library": "PATH"}, "'PATH', scoring='winner', max_empties=20"),
])
def test_a_solver_is_shown_copied_and_pickled(settings, shown, monkeypatch):
    path = load()._name
    shown = shown.replace("PATH", path)
    solver = Solver(**{**settings, **({"library": path} if "library" in settings else {})})
    for it in (solver, eval(f"Solver({shown})"), copy.copy(solver), copy.deepcopy(solver),
               pickle.loads(pickle.dumps(solver))):
        assert (repr(it), it.library_version) == (f"Solver({shown})", solver.library_version)
        assert it.solve(POSITION) == solver.solve(POSITION)
    monkeypatch.chdir(os.path.dirname(path))
    for it in (solver, Solver(**{**settings, "library": os.path.basename(path)})):
        with ProcessPoolExecutor(2, initializer=os.chdir, initargs=["/"]) as pool:
            assert list(pool.map(it.solve, [POSITION, AT_PASS])) == solver.solve_all([POSITION, AT_PASS])


def test_scorings_limits_and_versions_are_those_of_the_library_and_scorings_and_kinds_print_as_their_names():
    assert [f"{it} {it!s:>7}" for it in Scoring] == ["winner  winner", "discs   discs", "sign    sign"]
    assert [f"{it}" for it in Kind] == ["moves", "pass", "over"]
    assert list(Scoring) == [0, 1, 2]
    for scoring in Scoring:
        for name in (scoring, int(scoring), scoring.name, scoring.name.lower()):
            assert Solver(scoring=name).scoring is scoring
    assert (POSITION.empties, POSITION.passed().empties, START.empties) == (2, 2, 60)
    limit = Solver()._library.ffosolve_limit
    assert [limit(0), limit(1), limit(2)] == [ffosolve.MOST_ENTRIES, ffosolve.MOST_EMPTIES, len(Scoring)]
    assert Solver().library_version == re.split(r"\+|\.dev", ffosolve.__version__)[0]
    assert version_of(mock.Mock(**{"ffosolve_version.return_value": 11_203})) == "1.12.3"
    assert Solver(entries=ffosolve.MOST_ENTRIES).solve(POSITION) == ANSWER
    assert [Solver(max_empties=most).max_empties for most in (0, 60)] == [0, 60]


@pytest.mark.parametrize("settings, scoring, entries", [
    ({}, 0, ffosolve.table_entries(52)), ({"scoring": 2, "entries": 7}, 2, 7),
])
def test_the_library_gets_the_scoring_the_size_of_the_table_and_the_claim(settings, scoring, entries, monkeypatch):
    """By default, the table has the size that `table_entries` gives for the most empty squares of a position."""
    monkeypatch.setattr("ffosolve._processes.is_brief", lambda *_: True)  # no call is made by another process
    monkeypatch.setattr("ffosolve._processes.program", mock.Mock())
    solver = Solver(max_empties=60, **settings)
    library = solver._library = library_that_returns(0)
    for name in LISTS:
        find(name, 1, solver, [POSITION, Position(0xFFF, 0), POSITION])
    given = [call.args[1:4] for call in library.method_calls]
    assert given == [(1, scoring, settings.get("entries", 0)), (2, scoring, entries)] * len(LISTS)
    solver.confirm(Position(0xFF0, 0xF), Answer(-3, Kind.OVER, 4))
    position, *given, claim, _ = library.ffosolve_confirm.call_args.args
    assert given == [scoring, entries]
    assert (position.own, position.opp, claim.score, claim.kind, claim.best) == (0xFF0, 0xF, -3, Kind.OVER, 4)


@pytest.mark.parametrize("call", [
    *(lambda name=name: find(name, 1, Solver(), [POSITION] * 9) for name in ONE + MANY[:4]),
    lambda: START.play_all("f5d6c3"), lambda: list(read_lines([CORNERS] * 9)), START.symmetries,
])
def test_calls_keep_no_memory(call):
    call()
    tracemalloc.start()
    for _ in range(200):
        call()
    gc.collect()
    kept, _ = tracemalloc.get_traced_memory()
    tracemalloc.stop()
    assert kept < 3000  # 15 bytes for each call


# LISTS are refused before anything is solved: WIDE, the first position there, would take hours.
@pytest.mark.parametrize("names, given, error, why, index", [
    (ONE, [SHARED], SharedSquare, SHARES, None),
    (SEARCHES, [WIDER], TooManyEmpties, MORE, None),
    (LISTS, [WIDE, WIDER, SHARED], TooManyEmpties, f"position at index 1: {MORE}", 1),
    (ITERATORS, [POSITION, WIDER, SHARED], TooManyEmpties, f"position at index 1: {MORE}", 1),
    *((ONE + MANY, [POSITION, it], TypeError, r"a position is two masks, as Position\(own, opp\) and .* not .*", None)
      for it in ("x", "ab", None, 5, ANSWER, (1,), (1, 2, 3), (0.5, 1), ("a", "b"), CORNERS)),
    *((ONE + MANY, [POSITION, it], ValueError, re.escape(MASK), None) for it in (Position(-1, 0), Position(0, 2**64))),
    (MANY, POSITION, TypeError, r"positions are a list or .*, as \[position\], not a single one", None),
    (MANY, tuple(POSITION), TypeError, "a position is two masks, .* not [0-9.]+", None),
])
def test_each_call_refuses_positions_that_it_may_not_solve_and_other_objects(names, given, error, why, index):
    for name in names:
        with pytest.raises(error, match=f"^{why}$") as caught:
            find(name, 1, Solver(max_empties=33), given)
        assert (type(caught.value), getattr(caught.value, "index", None)) == (error, index), name


FIRST = f"{'-' * 27}OX{'-' * 6}XO{'-' * 27} X;"
SECOND = f"{'-' * 27}OX{'-' * 6}XXX{'-' * 26} O;"  # after F5
THIRD = f"{'-' * 27}OX{'-' * 6}OXX{'-' * 5}O{'-' * 20} X;"  # after D6
AFTER, FULL = Position.from_obf(SECOND), Position(2**64 - 1, 0)
SCORING, SIDE = "a scoring is 'winner', 'discs' or 'sign', not ", "the side to move is 'X' or 'O', not "
LISTED = "a move is listed by the name of a square, as PS or as --, not as "
LINES = "lines are read from a path or an iterable of lines such as an open file, not from "
SHOWN = "scores are an Answer, or a mapping from squares' names such as move_scores returns, not "


@pytest.mark.parametrize("error, why, call", [
    (NoMove, f"E3 is not a legal move for Black in {FIRST}", lambda: START.play("e3")),
    (NoMove, f"F5 is not a legal move for White in {SECOND}", lambda: AFTER.play(37)),
    (NoMove, f"F5 is not a legal move for White in {SECOND}", lambda: Solver().play(AFTER, "f5")),
    (NoMove, f"A1 is not a legal move: White has to pass in {PASS}", lambda: AT_PASS.play("A1")),
    (NoMove, f"A5 is not a legal move: the game is over in {END}", lambda: OVER.play("A5")),
    (NoMove, f"move 3: D6 is not a legal move for Black in {THIRD}", lambda: START.play_all("f5d6d6")),
    (NoMove, f"move 2: a pass is not a legal move for White in {SECOND}", lambda: START.play_all("f5 --")),
    (NoMove, "move 2: no square has the name 'z9'", lambda: START.play_all("f5z9")),
    *((NoMove, f"move 2: D6 is not a legal move for Black in {THIRD}", partial(AFTER.play_all, moves))
      for moves in ("d6d6", ["D6", "D6"], iter([43, 43]))),
    (ValueError, "it is a game in SGF, or in GGF without GM[Othello]", lambda: START.play_all("(;GM[2]B[f5];)")),
    *((GameRefused, None, Game.of_text(text).turns) for text in ("f5f5", "z9")),
    (TypeError, "a game is a Game or the text of a transcript, not 5", lambda: Solver().positions(5)),
    *((NoMove, f"square {square} is not a legal move for Black in {FIRST}", partial(START.play, square))
      for square in (64, -1, 255, 256, 256 + 19)),
    *((NoMove, f"a pass is not a legal move{why}", partial(it.play, word)) for word in PASSES for it, why in (
        (START, f" for Black in {FIRST}"), (FULL, f": the game is over in {FULL.to_obf()}"))),
    *((ValueError, f"no square has the name {it!r}", partial(call, it))
      for call in (START.play, START.is_legal, START.piece_at, square_number) for it in ("I9", "", "I1", "A9", "A11")),
    *((ValueError, f"no square has the number {number}", partial(call, number))
      for call in (square_name, START.piece_at) for number in (-1, 64)),
    *((TypeError, f"a square is a name such as 'F5' or a number from 0 to 63, not {it!r}", partial(call, it))
      for call in (START.play, START.piece_at) for it in (None, 1.5, ["F5"])),
    (TypeError, None, lambda: square_name("A1")),
    *((TypeError, f"moves are a transcript or a list of squares, not {it!r}", partial(START.play_all, it))
      for it in (5, None, b"f5d6")),
    *((ValueError, f"{MASK}, not {mask}", partial(call, mask))
      for call in (square_names, Symmetry.HALF_TURN.mask) for mask in (-1, 1 << 64)),
    (ValueError, f"the game is not over, so only a Solver finds the score: {FIRST}", START.score),
    (ValueError, f"the game is not over, so only a Solver finds the score: {PASS}", AT_PASS.score),
    (UnknownScoring, f"{SCORING}'loser'", lambda: OVER.score("loser")),
    *((SharedSquare, SHARES, call) for call in (
        lambda: SHARED.legal_moves, lambda: SHARED.must_pass, lambda: SHARED.is_over, SHARED.score, SHARED.canonical,
        lambda: SHARED.play(9), lambda: SHARED.play_all("f5"))),
    *((UnknownSymmetry, f"a symmetry has a number from 0 to 7, not {number}", partial(START.image, number))
      for number in (-1, 8, 256, 2**32)),
    *((TypeError, f"{MASK}, not {it!r}", call) for it in (0.5, "a", None) for call in (
        partial(Position, it, 2), partial(Position, 1, it), partial(START._replace, own=it))),
    *((ValueError, f"{SIDE}{it!r}", call) for it in ("black", "x") for call in (
        partial(Position, 1, 2, it), partial(POSITION.show, {}, it), partial(START._replace, side=it))),
    (TypeError, None, lambda: START._replace(last_move="A1")),
    *(((AttributeError, TypeError), None, call) for call in (
        lambda: POSITION < START, lambda: POSITION[0], lambda: len(POSITION), lambda: POSITION + POSITION,
        lambda: POSITION.count(1), lambda: POSITION.index(1), lambda: setattr(POSITION, "note", ""))),
    (ValueError, "C1 has a score, but is not empty", lambda: POSITION.show({"C1": 3})),
    *((ValueError, f"no square has the name {it!r}", lambda it=it: POSITION.show({it: 3})) for it in (9, "I9")),
    *((TypeError, f"the score of A1 is a number, not {it!r}", call) for it in ("x", None) for call in (
        lambda it=it: POSITION.show({"A1": it}), lambda it=it: POSITION.to_obf(moves={"A1": it}))),
    *((TypeError, SHOWN + repr(it), partial(POSITION.show, it)) for it in (62, [], [("H1", 62)], POSITION.listed)),
    (ValueError, "a board is saved as a picture in SVG, so its file's name ends with .svg: it.png",
     lambda: START.show().save("it.png")),
    (FileNotFoundError, None, lambda: START.show().save("/nowhere/it.svg")),
    (ValueError, "A1 was the last move, but is empty", lambda: Board(*START, "X", last_move="A1")),
    (ValueError, "no square has the name 'I9'", lambda: Board(*START, "X", last_move="I9")),
    (ValueError, f"{LISTED}'I9'", lambda: POSITION.to_obf(moves={"I9": 3})),
    (ValueError, f"{LISTED}3", lambda: POSITION.to_obf(moves=[(3, 3)])),
    *((TypeError, f"a claim is an Answer(score, kind, best), not {it!r}", lambda it=it: Solver().confirm(POSITION, it))
      for it in (62, None, (62, 0, 128), POSITION.listed)),
    (TypeError, None, lambda: Solver().confirm(POSITION, Answer(0.5, Kind.MOVES, 1))),
    *((TypeError, f"OBF text is of the type str or bytes, not {type(it).__name__}", partial(call, it))
      for call in (Position.from_obf, parse_lines) for it in (5, None, ["a"])),
    *((TypeError, LINES + what, partial(read_lines, it)) for it, what in (
        (f"{CORNERS}\n", "a text, which parse_lines reads"), (b"", "a text, which parse_lines reads"), (5, "5"),
        (None, "None"))),
    (FileNotFoundError, None, lambda: read_lines("/nowhere/none.obf")),
    *((UnknownScoring, SCORING + repr(it), lambda it=it: Solver(scoring=it)) for it in (3, -1, "loser", None, 0.5)),
    (TooManyEntries, "more than 4194304 table entries", lambda: Solver(entries=ffosolve.MOST_ENTRIES + 1)),
    (ValueError, "max_empties is at most 60, not 61", lambda: Solver(max_empties=61)),
    *((error, f"{name} is {why}", partial(Solver, **{name: it})) for name in ("entries", "max_empties")
      for it, error, why in ((-1, ValueError, "at least 0, not -1"), ("7", TypeError, "a whole number, not '7'"),
                             (7.0, TypeError, "a whole number, not 7.0"))),
    *((TypeError, f"a library is named by its path, not {it}; maybe Solver(max_empties={it})?", partial(Solver, it))
      for it in (24, 7.5)),
])
def test_a_wrong_call_is_refused_with_its_reason(error, why, call):
    with pytest.raises(error, match=why and f"^{re.escape(why)}$"):
        call()


@pytest.mark.parametrize("refusal", [
    it for it in ffosolve.Refused.__subclasses__() if it not in (ffosolve.OtherRefusal, ffosolve.LineRefused)])
def test_a_refusal_has_the_index_of_its_position_and_is_a_value_error_or_memory_error(refusal):
    assert (str(refusal()), refusal().index) == (refusal.reason, None)
    assert issubclass(refusal, MemoryError if refusal is ffosolve.NoMemory else ValueError)
    for it in (refusal(1), pickle.loads(pickle.dumps(refusal(1)))):
        assert (type(it), str(it), it.index) == (refusal, f"position at index 1: {refusal.reason}", 1)


@pytest.mark.parametrize("refusal, number, text, reason, at, column", [
    (ffosolve.NoPosition, 8, " % X", "no position: the line is blank or a comment", 0, None),
    (ffosolve.ShortBoard, 9, CORNERS[:63], "board has 63 of 64 squares", 63, None),
    (ffosolve.BadSquare, 10, " " + CORNERS[:3] + "\ud800", "bad square at column 5", 5, 5),
    (ffosolve.BadSide, 11, CORNERS[:64] + " -;", "bad side at column 66", 66, 66),
])
def test_a_refused_line_has_its_status_and_the_text_of_a_report(refusal, number, text, reason, at, column):
    assert issubclass(refusal, ffosolve.LineRefused) and issubclass(refusal, ValueError)
    for line in (text, text.encode("utf-8", "surrogatepass"), text + "\n", text + "\r\n"):
        for it in refused(refusal, Position.from_obf, line):
            assert (it.status, str(it), it.reason, it.at) == (number, reason, reason, at)
            assert (it.column, it.line) == (column, None)
    for it in (refusal(at, 3), pickle.loads(pickle.dumps(refusal(at, 3)))):
        assert (str(it), it.at, it.line) == (f"line 3: {reason}", at, 3)


@pytest.mark.parametrize("status, refusal, reason", [
    (7, ffosolve.NoMemory, "out of memory"), (99, ffosolve.OtherRefusal, "refused with status 99")])
def test_each_call_raises_out_of_memory_and_unknown_statuses(status, refusal, reason, monkeypatch):
    solver = Solver()
    solver._library = library_that_returns(status)
    monkeypatch.setattr("ffosolve._library._loaded", [solver._library])
    for name in ONE + MANY:
        for it in refused(refusal, find, name, 1, solver, [POSITION]):
            assert (type(it), it.status, str(it), it.index) == (refusal, status, reason, None)


@pytest.mark.parametrize("read", [Position.from_obf, lambda line: next(read_lines([line], refused=print))])
def test_a_line_whose_moves_do_not_fit_into_memory_raises_no_memory(read):
    with mock.patch("ffosolve._obf.LISTED") as listed:
        listed.findall.side_effect = MemoryError
        assert refused(ffosolve.NoMemory, read, CORNERS)[0].index is None


@pytest.mark.parametrize("path", [
    "/nowhere/libffosolve.so", pathlib.Path("/nowhere/libffosolve.so"), __file__, "libc.so.6"])
def test_a_missing_library_is_named_by_its_path(path):
    """A name without a folder is a file in the current folder, and no library of the system."""
    with pytest.raises(ffosolve.LibraryNotFound, match=f"^{re.escape(os.path.abspath(path))}: "):
        Solver(path)


def test_places_are_searched_in_the_order_of_the_help(monkeypatch):
    monkeypatch.setenv("FFOSOLVE_LIBRARY", "/of/mine.so")
    assert libraries_to_try() == ["/of/mine.so"]
    monkeypatch.setenv("FFOSOLVE_LIBRARY", "")
    monkeypatch.setattr("os.path.exists", lambda _: True)
    monkeypatch.setattr("sys.prefix", "/of/venv")
    monkeypatch.setattr("sys.base_prefix", "/of/python")
    folder, name = os.path.dirname(ffosolve.__file__), "libffosolve.so.1"
    of_package = [f"{folder}/{level}/{name}" for level in ("x86-64-v3", "x86-64-v2")]
    others = [f"{prefix}/lib/{name}" for prefix in ("/of/venv", "/of/python", "/usr/local")]
    assert libraries_to_try() == [*of_package, name, *others]


@pytest.mark.parametrize("end", ["\n", "\r\n"])
def test_lines_are_numbered_skipped_and_refused_and_files_are_closed(end, tmp_path, recwarn):
    lines = ["", CORNERS, "% H1", CORNERS[:63], CORNERS[:64] + " O;", "?" + CORNERS]
    text, path = end.join(lines) + end, tmp_path / "it.obf"
    path.write_bytes(text.encode())
    for read, given in ((parse_lines, text), (parse_lines, text.encode()), (parse_lines, bytearray(text.encode())),
                        (read_lines, lines), (read_lines, [line + end for line in lines]),
                        (read_lines, io.StringIO(text)), (read_lines, io.BytesIO(text.encode())), (read_lines, path),
                        (read_lines, str(path))):
        wrong = []
        found = pickle.loads(pickle.dumps(list(read(given, refused=wrong.append))))
        assert [(line, line.number, line.side, line.listed) for line in found] == [
            (POSITION, 2, "X", (("H1", 62), ("PS", -4))), (POSITION.passed(), 5, "O", ())]
        assert [(type(error), str(error), error.line) for error in wrong] == [
            (ffosolve.ShortBoard, "line 4: board has 63 of 64 squares", 4),
            (ffosolve.BadSquare, "line 6: bad square at column 1", 6)]
    assert [*parse_lines(""), *parse_lines(b""), *parse_lines("% \udcff"), *read_lines([])] == []
    read = read_lines(lines)
    assert next(read) == POSITION
    with pytest.raises(ffosolve.ShortBoard):
        next(read)
    assert not [it for it in recwarn if str(path) in str(it.message)]  # such as an unclosed file


def test_table_entries_are_those_of_the_header():
    sizes = [ffosolve.table_entries(empties) for empties in range(ffosolve.MOST_EMPTIES + 1)]
    assert sizes == [0] * 11 + [4096] * 4 + [65536] * 8 + [1000000] * 38
    assert max(sizes) <= ffosolve.MOST_ENTRIES


ATTRIBUTES = ("own", "opp", "side", "last_move", "listed", "number")


class Mine(Position):
    """A subclass as a user writes one, with an attribute of its own."""

    note = ""


class Slotted(Position):
    __slots__ = ("note",)


def all_of(position):
    return type(position), *(getattr(position, name, None) for name in (*ATTRIBUTES, "note"))


@pytest.mark.parametrize("name", [*ATTRIBUTES, *Position.__slots__])
@pytest.mark.parametrize("position", [Position.start(), START, POSITION, Mine(1, 2)])
def test_no_attribute_can_be_assigned(position, name):
    before = all_of(position)
    with pytest.raises(AttributeError):
        setattr(position, name, getattr(POSITION.play("H1"), name))
    with pytest.raises(AttributeError):
        delattr(position, name)
    assert all_of(position) == before
    assert all_of(Position.start())[1:4] == (0x0000000810000000, 0x0000001008000000, "X")
    assert "note" not in dir(POSITION) and not hasattr(POSITION, "__dict__")


def test_mypy_sees_each_assignment(tmp_path, monkeypatch):
    mypy = pytest.importorskip("mypy.api")
    monkeypatch.setenv("MYPYPATH", os.path.dirname(os.path.dirname(ffosolve.__file__)))
    text = "from ffosolve import *\nposition = Position.start().play('F5')\ntotal: int = position.discs.black\n"
    (tmp_path / "it.py").write_text(text + "".join(f"position.{name} = position.{name}\n" for name in ATTRIBUTES))
    found, _, status = mypy.run(["--strict", f"--cache-dir={tmp_path}", str(tmp_path / "it.py")])
    refused = [line.split(":")[1] for line in found.splitlines() if "is read-only" in line]
    assert (status, refused) == (1, ["4", "5", "6", "7", "8", "9"]), found


@pytest.mark.parametrize("copied", [
    copy.copy, copy.deepcopy, lambda it: it._replace(), lambda it: it.__replace__(),
    *(lambda it, protocol=protocol: pickle.loads(pickle.dumps(it, protocol)) for protocol in range(2, 6))])
@pytest.mark.parametrize("kind", [Position, Mine, Slotted])
def test_a_copy_has_all_that_the_position_has(kind, copied):
    for position in (kind.start().play("F5"), kind.from_obf(CORNERS), kind(1, 2, "O"), kind(1, 2),
                     *ffosolve.read_lines([CORNERS])):
        if type(position) is not Position:
            position.note = "kept"
        again = copied(position)
        assert all_of(again) == all_of(position)
        assert again is not position


def test_replace_and_asdict_have_the_side():
    white = Mine(1, 2, "O")
    assert white._asdict() == {"own": 1, "opp": 2, "side": "O"}
    assert all_of(Mine(**white._asdict())) == all_of(white)
    for changes, wanted in (({"own": 4}, (4, 2, "O")), ({"opp": 4}, (1, 4, "O")), ({"side": "X"}, (1, 2, "X"))):
        changed = white._replace(**changes)
        assert (type(changed), *changed, changed.side) == (Mine, *wanted)
    assert all_of(white) == (Mine, 1, 2, "O", None, (), None, "")


def test_a_position_with_other_masks_has_no_last_move_and_no_line_but_one_with_another_side_has():
    after, (read,) = Mine.start().play("F5"), ffosolve.read_lines([CORNERS])
    after.note = "kept"
    for changes in ({"own": 0, "opp": 0}, {"own": 0}, {"opp": 0, "side": "O"}):
        other, board = after.__replace__(**changes), read.__replace__(**changes)
        assert (other.last_move, other.note, board.listed, board.number) == (None, "kept", (), None)
        assert str(other).count("X") == other.discs.black + (other.side == "X")
    assert (after._replace(side="X").last_move, after._replace(opp=after.opp).last_move) == ("F5", "F5")
    same = read._replace(own=read.own, side="O")
    assert (same.to_obf(), same.listed, same.number) == (POSITION.to_obf("O"), read.listed, 1)


def test_positions_with_equal_masks_are_equal_and_keep_their_colours():
    own, opp = POSITION
    assert len({POSITION, Position(own, opp), Position(own, opp, "O")}) == 1
    assert POSITION == (own, opp) and {POSITION: 1}[own, opp] and POSITION != (opp, own)
    assert Slotted(own, opp) == Mine(own, opp) == POSITION != [own, opp]
    assert repr(POSITION) == f"Position(own={own}, opp={opp})"
    assert repr(Position(1, 2, "O")) == "Position(own=1, opp=2, side='O')"
    assert repr(POSITION.show()) == str(POSITION)
    white, squares = Position(1, 2, "O"), "OX" + "-" * 62
    for text in (white.to_obf(), "oB" + "." * 62 + "w;A1:+2;"):
        assert Position.from_obf(text).to_obf() == squares + " O;"
    assert white.to_obf("X") == "XO" + "-" * 62 + " X;"
    assert white.passed().to_obf() == squares + " X;"
    assert Solver().play(tuple(START), "f5").side == "O"


def test_a_pickle_of_version_1_1_is_read():
    assert all_of(pickle.loads(b"\x80\2cffosolve._positions\nPosition\nK\1K\2\x86\x81.")) == all_of(Position(1, 2))


def test_new_positions_are_of_the_same_class():
    start = Mine.start()
    made = [start, start.play("F5"), start.play_all("f5d6"), start.passed(), Mine.from_obf(CORNERS), start.canonical(),
            start.image(3), *start.symmetries(), Solver().play(start, "F5"), Mine.from_obf(PASS).play("PS")]
    assert {type(position) for position in made} == {Mine}
    assert {type(position) for position in (Position.start(), POSITION, START.play("F5"))} == {Position}
    assert (Mine.from_obf(CORNERS).listed, Mine.from_obf(CORNERS).number) == ((("H1", 62), ("PS", -4)), None)
    assert {it.listed for it in (POSITION.passed(), POSITION.play("A1"), *POSITION.symmetries())} == {()}


def test_the_last_move_is_known_of_a_position_that_a_move_made():
    after = START.play("f5")
    assert [it.last_move for it in (START, after, after.passed(), after.play(43))] == [None, "F5", "PS", "D6"]
    assert [it.last_move for it in Solver().positions("f5d6c3")] == [None, "F5", "D6", "C3"]


def test_a_position_tells_its_discs():
    """After f5, Black has D5, E4, E5 and F5, and White D4."""
    for position in (START.play("F5"), AFTER, AFTER.passed(), AFTER.passed().passed()):
        assert position.discs == (4, 1) == (position.discs.black, position.discs.white)
        assert [position.piece_at(it) for it in ("D5", "e4", 36, "F5", "D4", "A1", 63)] == [*"XXXXO", None, None]


def test_a_pass_is_played_where_it_is_legal():
    for word in PASSES:
        assert [position.is_legal(word) for position in (START, AT_PASS, OVER)] == [False, True, False]
        assert AT_PASS.play(word).to_obf() == AT_PASS.passed().to_obf() == Solver().play(AT_PASS, word).to_obf()
        assert AT_PASS.play_all([word, "A1", word]) == AT_PASS.play_all(["A1"]) == AT_PASS.passed().play("A1")


def test_the_score_of_a_finished_game_needs_no_table(monkeypatch):
    library = mock.Mock(wraps=loaded())
    monkeypatch.setattr("ffosolve._positions.loaded", lambda: library)
    assert Position(2**64 - 1, 0).score() == 64
    assert [call.args[2:4] for call in library.method_calls] == [(0, 0)]


@pytest.mark.parametrize("own, opp", [
    (0xFFFFFFFFFFFFFF80, 0x7E), (0xFFFFFFFFFFFFFF18, 0x66), (0xFFFFFFF7FFFF7F7C, 0x0000000800008002)])
def test_the_canonical_image_is_the_least_of_the_images_and_the_same_for_all(own, opp):
    position = Position(own, opp, "O")
    images = position.symmetries()
    assert images[0] == position
    least = min(images, key=tuple)
    assert {image.canonical() for image in images} == {least}
    assert position.canonical_symmetry == images.index(least)
    assert [position.image(number) for number in range(8)] == images
    assert {image.side for image in (*images, position.canonical())} == {"O"}


def test_squares_have_names_and_numbers_and_a_symmetry_moves_them_as_its_help_says_and_its_inverse_moves_them_back():
    """H1 under each symmetry, and then each square. c and r are its column and row, counted from the other end."""
    assert [it.square("h1") for it in Symmetry] == "H1 A1 H8 A8 A8 H8 A1 H1".split()
    for column, row in itertools.product(range(8), range(8)):
        c, r = 7 - column, 7 - row
        wanted = [(column, row), (c, row), (column, r), (c, r), (row, column), (r, column), (row, c), (r, c)]
        number, square = 8 * row + column, "ABCDEFGH"[column] + "12345678"[row]
        assert (square_name(number), square_number(square.lower())) == (square, number)
        found = [it.square(square) for it in Symmetry]
        assert found == [square_name(8 * to_row + to_column) for to_column, to_row in wanted]
        assert [it.inverse.square(to) for it, to in zip(Symmetry, found)] == [square] * 8
    for symmetry in Symmetry:  # AFTER has no symmetry
        assert {symmetry.square(move) for move in AFTER.legal_moves} == set(AFTER.image(symmetry).legal_moves)
        assert [symmetry.square(move) for move in ("PS", "ps", "--")] == ["PS", "PS", "--"]
        assert (symmetry.mask(AFTER.own), symmetry.mask(AFTER.opp)) == tuple(AFTER.image(symmetry))
        assert (symmetry.mask(0), symmetry.mask(2 ** 64 - 1)) == (0, 2 ** 64 - 1)


def test_the_picture_marks_the_last_move_and_is_saved(tmp_path):
    mark, after = 'fill="#d0402b"', START.play("F5")
    for position, marks in ((START, 0), (after, 1), (after.passed(), 0), (Position(*after), 0)):
        assert position.show({"A1": 2})._repr_svg_().count(mark) == marks
        position.show().save(tmp_path / "it.svg")
        picture = (tmp_path / "it.svg").read_text()
        assert xml.etree.ElementTree.fromstring(picture).tag == "{http://www.w3.org/2000/svg}svg"
        assert picture == position._repr_svg_() + "\n" and picture.count(mark) == marks
        assert marks == 0 or f'cx="{22 + 44 * 5 + 22}" cy="{22 + 44 * 4 + 22}" r="5" {mark}' in picture


def test_a_line_lists_moves():
    assert POSITION.to_obf() == CORNERS[:67]
    assert POSITION.to_obf(moves=POSITION.listed) == CORNERS[:67] + " H1:+62; PS:-04;"
    assert POSITION.to_obf("O", moves={"a1": 5, "--": -7.5}) == Position(*POSITION, "O").to_obf() + " A1:+05; --:-7.5;"
    assert Position.from_obf(POSITION.to_obf(moves=POSITION.listed)).listed == POSITION.listed
