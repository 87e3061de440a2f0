"""The memory and the time that programs and the library's calls take, with tables of several sizes and with a book."""
import functools
import resource
import timeit

import pytest

from ffosolve import MOST_ENTRIES, Position
from tests.library import Calls, declarations
from tests.support import SECONDS, built, ends, limited, run, stored, write

pytestmark = pytest.mark.usefixtures("installed")
KINDS = stored("examples", "kinds.obf").decode()
HARD = b"-XXO-O--OXXXOO--OXXOXO--OXXXXO--OOOOXOO--OOXOXOOXOOO-OXXO--O--O- X\n"  # 18 empty squares
ADVISED = b"-XOOOO-X-XOOOOX--OOXOOXX-OOXXOXO-OXOXXO-OOOXOOX-OOXOOO--OX--O--- X\n"  # a third of the time with a book
MOVES = b"-------X--XX-XX-X-XXXX---XOOXOOX-OOXOOOOOOOOOXXXXOOOXOO--OOOOOOO X\n"  # 18 empty squares
AGAIN = 8  # how often a position is repeated


def spent():
    """Returns the processor time in seconds that this process and the commands that it ran have taken so far."""
    return sum(sum(resource.getrusage(who)[:2]) for who in (resource.RUSAGE_SELF, resource.RUSAGE_CHILDREN))


def is_shorter(quick, slow, times, repeat=3):
    """Returns whether `quick` takes less than 1/`times` of the processor time of `slow`: the least of `repeat` calls of
    each, made in turn, or one of ten more calls of `quick`, since other work on the machine slows a call at times."""
    seconds = functools.partial(timeit.timeit, timer=spent, number=1)
    without, usual = map(min, zip(*((seconds(slow), seconds(quick)) for _ in range(repeat))))
    return usual < without / times or any(seconds(quick) < without / times for _ in range(10))


@pytest.mark.parametrize(("name", "status"), [("ffosolve", 1), ("ffoscores", 3)])
def test_the_greatest_table_takes_more_memory(folder, name, status):
    words, little = (built(name), "--workers", "0"), limited(RLIMIT_AS=64 << 20)  # enough for the default table
    usual = run(*words, input=KINDS, text=True)
    ends((usual.returncode, usual.stdout, ""), *words, input=KINDS, preexec_fn=little)
    ends((status, "", f"{name}: out of memory\n"), *words, "--table", MOST_ENTRIES, input=KINDS, preexec_fn=little)


@pytest.mark.parametrize(("options", "lines"), [("--workers 0", 1), ("--workers 0 --progress", 1), ("--workers 8", 8),
                                                ("it.obf it.obf", 0)])
def test_a_right_book_saves_time_with_workers_with_progress_and_of_several_files(folder, options, lines):
    run(built(), "--book-out", "right.book", input=ADVISED, check=True)
    write("it.obf", ADVISED)
    words, how = (built(), "--table", 0, *options.split()), {"input": ADVISED * lines, "check": True}
    assert is_shorter(lambda: run(*words, "--book-in", "right.book", **how), lambda: run(*words, **how), 2)


# With threads, several may begin with the same position.
@pytest.mark.parametrize(("name", "workers", "times"), [("ffosolve", 0, 30), ("ffoscores", 0, 15), ("ffosolve", 3, 10),
                                                        ("ffoscores", 3, 10)])
def test_a_table_makes_a_run_at_least_ten_times_as_fast(name, workers, times):
    words = (built(name), "--workers", workers)
    how = {"input": (HARD + ADVISED) * 3 * AGAIN, "check": True, "timeout": 3 * SECONDS}
    assert is_shorter(lambda: run(*words, **how), lambda: run(*words, "--table", 0, **how), times, repeat=1)


CALLED, MOVED = (dict(zip(("own", "opp"), Position.from_obf(line))) for line in (HARD, MOVES))
CLAIMS = {score: {"score": score, "kind": 0, "best": 0} for score in (-8, -6, 20)}  # of CALLED; -8 is right


@pytest.mark.parametrize(("slow", "quick", "times"), [
    pytest.param(("solve", CALLED, 0, 0), ("solve", CALLED, 0, 65536), 2, id="a table for solve"),
    pytest.param(("confirm", CALLED, 0, 0, CLAIMS[-6]), ("confirm", CALLED, 0, 65536, CLAIMS[-6]), 2,
                 id="a table for confirm"),
    pytest.param(("move_scores", MOVED, 0, 0), ("move_scores", MOVED, 0, 65536), 2, id="a table for move_scores"),
    pytest.param(("solve", CALLED, 0, 0), ("confirm", CALLED, 0, 0, CLAIMS[-8]), 2, id="a right claim"),
    pytest.param(("confirm", CALLED, 0, 0, CLAIMS[20]), ("confirm", CALLED, 0, 0, CLAIMS[-8]), 2, id="no wrong claim"),
    *(pytest.param(([name] * AGAIN, (CALLED,), 0, 65536, 1), (name, (CALLED,) * AGAIN, 0, 65536, AGAIN), 3,
                   id=f"one table for {name}") for name in ("solve_all", "move_scores_all")),
])
def test_calls_take_less_time_with(slow, quick, times):
    call = Calls("timed", declarations())
    assert (call(*slow)[0], call(*quick)[0]) == (0, 0)
    assert is_shorter(lambda: call(*quick), lambda: call(*slow), times)
