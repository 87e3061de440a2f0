"""Many positions at once in Python: lists, iterators and arrays, on one thread and on several."""
import itertools
import sys
import threading
import time
from unittest import mock

import pytest

from .games import random_positions
from .support import ROOT, SECONDS, run, wait_until
import ffosolve
from ffosolve import Answer, Position, Solver, _bulk

SHARED, WIDE = Position(3, 2), Position(1, 6)
NAMES = "solve_all", "solve_iter", "move_scores_all", "move_scores_iter"
ARRAYS = "solve_arrays", "move_scores_arrays"
each_refusal = pytest.mark.parametrize("bad, error", [(SHARED, ffosolve.SharedSquare), (WIDE, ffosolve.TooManyEmpties)])
on_threads = pytest.mark.parametrize("threads", [1, 2])
pytestmark = pytest.mark.timeout(60)  # seconds for a test, also if threads wait for each other
POSITIONS = random_positions(400, range(11))


def arguments(name, positions):
    """Returns what the call `name` takes for positions: these, or arrays of their masks."""
    if name not in ARRAYS:
        return [positions]
    pytest.importorskip("numpy")
    return ffosolve.masks_of(positions)


@pytest.fixture(scope="module")
def wanted():
    """The results that each call has to find for POSITIONS: those of the calls for one position."""
    answers, scores = ([call(position) for position in POSITIONS] for call in (Solver().solve, Solver().move_scores))
    return dict(zip(NAMES, (answers, answers, scores, scores)))


@pytest.fixture(params=[7, 0])
def mocked(monkeypatch, request):
    """A Solver and a mock that stands for its library, since no call is made by another process. A call with a
    `side_effect` does that, and what the library does only if that returns mock.DEFAULT."""
    monkeypatch.setattr("ffosolve._processes.is_brief", lambda *_: True)
    monkeypatch.setattr("ffosolve._processes.program", mock.Mock(side_effect=FileNotFoundError))
    solver = Solver(scoring=2, entries=request.param)
    solver._library = mock.Mock(wraps=solver._library)
    return solver, solver._library


@pytest.mark.parametrize("name", NAMES)
@pytest.mark.parametrize("threads, given", [(1, list), (2, iter), (4, tuple), (3, iter), (1, iter)])
def test_calls_for_many_positions_return_in_order_what_calls_for_one_return(name, threads, given, wanted):
    long = random_positions(1, [13])  # whose result comes first nevertheless
    call, one = getattr(Solver(), name), Solver().solve if name in NAMES[:2] else Solver().move_scores
    assert list(call(given(long + 5 * POSITIONS), threads=threads)) == [one(*long), *5 * wanted[name]]  # several parts
    assert list(call([], threads=threads)) == []


@pytest.mark.parametrize("threads", [1, 4])
def test_results_come_before_an_endless_or_slow_iterable_ends(threads, wanted):
    taken, answers = [], wanted["solve_iter"]

    def endless():
        for position in itertools.cycle(POSITIONS):
            time.sleep(0.2 if len(taken) < 15 else 0)  # slow at first
            taken.append(position)
            yield position

    found = Solver().solve_iter(endless(), threads=threads)
    assert iter(found) is found
    assert next(found) == answers[0]
    assert len(taken) == 1 if threads == 1 else len(taken) < 15
    assert list(itertools.islice(found, 499)) == answers[1:] + answers[:100]
    found.close()
    assert len(taken) < 100_000


def test_without_new_threads_the_caller_makes_the_calls(monkeypatch, wanted):
    monkeypatch.setattr(threading.Thread, "start", mock.Mock(side_effect=RuntimeError("can't start new thread")))
    assert Solver().solve_all(POSITIONS, threads=3) == wanted["solve_all"]


@on_threads
def test_answers_that_are_found_come_before_a_timeout(threads):
    positions, found = random_positions(300, range(3)), []  # more than a part

    def late():
        yield from positions
        time.sleep(1.2)
        yield positions[0]

    with pytest.raises(TimeoutError):
        found.extend(Solver().solve_iter(late(), threads=threads, timeout=1))
    assert found and found == Solver().solve_all(positions)[:len(found)]


@on_threads
def test_an_error_of_the_iterable_is_raised_as_it_is(threads):
    def late():
        yield POSITIONS[0]
        raise TimeoutError("of the iterable")

    for call in (Solver().solve_all, Solver().solve_iter):
        with pytest.raises(TimeoutError, match="^of the iterable$"):
            list(call(late(), threads=threads, timeout=SECONDS))


@pytest.mark.parametrize("threads", [3, 6])
@pytest.mark.parametrize("name", [*NAMES, *ARRAYS])
def test_as_many_threads_as_asked_make_calls_at_once_with_the_scoring_and_table_of_the_solver(name, threads, mocked):
    """Each position is a part of its own. The calls wait until there are as many as threads."""
    (solver, library), positions, at_once = mocked, random_positions(2 * threads, [16]), threading.Barrier(threads)
    call, given = getattr(solver, name), arguments(name, positions)
    alone = str(list(call(*given)))
    for made in (library.ffosolve_solve_all, library.ffosolve_move_scores_all):
        made.side_effect = lambda *_: (at_once.wait(SECONDS), mock.DEFAULT)[1]
    library.reset_mock()
    with mock.patch.object(_bulk, "is_started", wraps=_bulk.is_started) as started:
        assert str(list(call(*given, threads=threads))) == alone
    assert [call.args[2:4] for call in library.method_calls] == [(2, solver._entries)] * 2 * threads
    assert started.call_count == threads


@pytest.mark.parametrize("others_finish", [False, True])
def test_a_closed_iterator_waits_for_nothing_begins_nothing_and_has_read_few_positions_ahead(mocked, others_finish):
    """Each position is a part of its own. While the first is being solved, others are read, and maybe finished."""
    (solver, library), (begun, taken) = mocked, (itertools.count(), itertools.count())
    waited, closed, (position,) = [], threading.Event(), random_positions(1, [20])

    def solve_all(*_):
        is_first = next(begun) == 0
        if is_first or not others_finish:
            waited.append(closed.wait(0.5 if is_first else SECONDS) or is_first)
        return 0

    def endless():
        for _ in taken:
            time.sleep(others_finish / 1000)
            yield position

    library.ffosolve_solve_all.side_effect = solve_all
    answers = solver.solve_iter(endless(), threads=2)
    next(answers)
    answers.close()
    closed.set()
    wait_until(lambda: "ffosolve" not in [thread.name for thread in threading.enumerate()])
    assert all(waited)
    assert next(begun) <= (100 if others_finish else 4)
    assert next(taken) < 100


@pytest.mark.parametrize("name", ["solve_iter", "move_scores_iter"])
@each_refusal
@on_threads
@pytest.mark.parametrize("place", [0, 7, 299])
def test_an_iterator_yields_the_answers_before_a_refusal(name, bad, error, threads, place, wanted):
    found = []
    with pytest.raises(error) as refused:
        found.extend(getattr(Solver(), name)([*POSITIONS[:place], bad, *POSITIONS[place:], SHARED], threads=threads))
    assert (found, refused.value.index) == (wanted[name][:place], place)


@pytest.mark.parametrize("name", ["solve_all", "move_scores_all", *ARRAYS])
@each_refusal
@on_threads
@pytest.mark.parametrize("more", [[], POSITIONS[:300]], ids=["the first part", "another part"])
def test_a_list_is_refused_before_anything_is_solved(name, bad, error, threads, more):
    """The first position would take hours to solve."""
    before = random_positions(1, [34]) + more
    with pytest.raises(error) as refused:
        getattr(Solver(max_empties=34), name)(*arguments(name, [*before, bad, SHARED]), threads=threads)
    assert refused.value.index == len(before)


@pytest.mark.parametrize("name", [*NAMES, *ARRAYS])
@pytest.mark.parametrize("threads, error", [(0, ValueError), (-1, ValueError), ("4", TypeError), (1.5, TypeError)])
def test_a_number_of_threads_is_refused_by_its_name(name, threads, error):
    with pytest.raises(error, match="^threads is .*, not "):
        getattr(Solver(), name)(*arguments(name, []), threads=threads)


@pytest.mark.parametrize("scoring, threads, count", [(0, 1, 90), (1, 1, 90), (2, 1, 90), (0, 3, 400), (0, 2, 0)])
def test_arrays_hold_what_lists_hold(scoring, threads, count):
    solver, positions = Solver(scoring=scoring), POSITIONS[:count]
    answers, scores = (getattr(solver, name)(*arguments(name, positions), threads=threads) for name in ARRAYS)
    assert [str(array.dtype) for array in (*answers, scores)] == ["int32", "int32", "uint64", "int8"]
    assert scores.shape == (count, 64)
    assert all(array.flags.carray for array in (*answers, scores))  # they can be changed, and are contiguous
    listed = [Answer(*its) for its in zip(*(array.tolist() for array in answers))]
    assert listed == solver.solve_all(positions, threads=threads)
    listed = [{ffosolve.square_name(at): score for at, score in enumerate(row) if score != ffosolve.NO_SCORE}
              for row in scores.tolist()]
    assert listed == solver.move_scores_all(positions, threads=threads)


@pytest.mark.parametrize("name", ARRAYS)
def test_arrays_of_other_shapes_are_refused(name):
    own, opp = arguments(name, POSITIONS)
    for given in (own[:-1], own.reshape(20, 20)):
        with pytest.raises(ValueError, match="^the masks are two arrays of one dimension and of equal length$"):
            getattr(Solver(), name)(given, opp)


def test_no_program_needs_numpy():
    words = "import sys, ffosolve; ffosolve.Solver().solve_all([], threads=2); sys.exit('numpy' in sys.modules)"
    assert run(sys.executable, "-c", words, cwd=ROOT / "python/src").returncode == 0
