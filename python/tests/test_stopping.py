"""Calls can be interrupted or cancelled. Those that may last are made by programs, which end with this one."""
import asyncio
import contextlib
import contextvars
import gc
import inspect
import os
import pickle
import queue
import resource
import shutil
import signal
import subprocess
import sys
import threading
import time
import tracemalloc
from concurrent.futures import CancelledError, ThreadPoolExecutor
from unittest import mock

import psutil
import pytest

from calls import ANSWER, LISTS, MANY, POSITION as EASY, SEARCHES, find
import ffosolve
from ffosolve import START, Answer, Kind, Position, Solver, _bulk, _library, _processes, _solvers

HOPELESS = START  # would take years
HARD = Position.from_obf("XXX--OXOOXOOOOOO-XXXXXOO-XXXXOOO---XOXOO--OOOOOO---OOXOO----OOOO X;")  # 16 empty squares
QUICK = Position.from_obf("OXXX-XO-XOXXXXXX--OXOXOXOOOOXXOXOOOXXXXXOOOOOOXXXXOOOXXX--OOX-XO O;")  # 7 empty squares
LATE = 60  # seconds that a busy machine may take for what is done at once

CALLS = [(name, threads) for threads in (1, 3) for name in SEARCHES + MANY]
each_call, on_threads = pytest.mark.parametrize("name, threads", CALLS), pytest.mark.parametrize("threads", [1, 3])
# Its mock, the test's first argument, counts how often a program is started for positions.
FIND, START_ONE = _processes.Process.find, _processes.SolverCall.started
counts_starts = mock.patch.object(_processes.SolverCall, "started", autospec=True, side_effect=START_ONE)


@pytest.fixture(autouse=True)
def solver():
    """A Solver for any position. After the test, asserts that, once processors have worked for a second at most, none
    works for this process, and no process is left. Waits for the threads of calls, too."""
    pytest.importorskip("numpy")
    gc.collect()  # of earlier tests: later, it could call Python code in which the exception of a handler gets lost
    yield Solver(max_empties=60)
    # On a busy machine that may come late, since even a killed process ends on a processor.
    wait_until(lambda: not any(working() or children() or time.sleep(0.01) for _ in range(5)), working, children,
               most=1)
    for thread in threading.enumerate():
        if thread.name == "ffosolve":
            thread.join(10)


def state(task):
    """Returns the state of a process or thread, such as psutil.STATUS_RUNNING; psutil.STATUS_ZOMBIE if it has ended."""
    with contextlib.suppress(psutil.NoSuchProcess):
        return psutil.Process(task).status()
    return psutil.STATUS_ZOMBIE


def children():
    """Returns the process IDs of this process's children that have not ended."""
    return [child.pid for child in psutil.Process().children() if state(child.pid) != psutil.STATUS_ZOMBIE]


def working():
    """Returns the threads of this process and of its children that want a processor, but not the thread that asks."""
    found = []
    for process in (psutil.Process(), *psutil.Process().children()):
        with contextlib.suppress(psutil.NoSuchProcess):
            found += [thread.id for thread in process.threads()]
    return [it for it in found if state(it) == psutil.STATUS_RUNNING and it != threading.get_native_id()]


def worked():
    """Returns the seconds of processors for this process's children, ended or not, and for its other threads."""
    ended, running = None, 0
    while ended != os.times()[2:4]:  # otherwise one that has ended meanwhile might count twice or never
        ended, running = os.times()[2:4], 0
        for child in psutil.Process().children():
            with contextlib.suppress(psutil.NoSuchProcess):
                running += sum(child.cpu_times()[:2])
    return time.process_time() - time.thread_time() + sum(ended) + running


def wait_until(holds, *why, most=LATE):
    """Waits until something holds; fails if that takes more than LATE seconds, or `most` seconds of processors."""
    begun, end = worked(), time.monotonic() + LATE
    while not holds():
        assert time.monotonic() < end and worked() - begun < most, [it() for it in why]
        time.sleep(0.01)


def by_timeout(call):
    solved = "; positions solved: [0-9]+( of [0-9]+)?"
    with pytest.raises(TimeoutError, match=f"^not finished within 0.3 seconds({solved})?$"):
        call(timeout=0.3)


class Left(Exception):
    """What the handler of a signal raises."""


def timer(seconds, call, *given):
    """Makes a call from another thread after so many seconds, unless the `with` block ends before."""
    later, stack = threading.Timer(seconds, call, given), contextlib.ExitStack()
    later.start()
    stack.callback(later.cancel)
    return stack


def by_signal(call):
    def leave(*_):
        raise Left

    before = signal.signal(signal.SIGALRM, leave)
    with pytest.raises(Left):
        signal.setitimer(signal.ITIMER_REAL, 0.3)
        call()
    signal.signal(signal.SIGALRM, before)


def by_ctrl_c(call):
    with pytest.raises(KeyboardInterrupt), timer(0.3, signal.raise_signal, signal.SIGINT):
        call()


async def waited_for(task):
    with pytest.raises(asyncio.TimeoutError):
        await asyncio.wait_for(task, 0.3)


async def cancelled(task):
    await asyncio.sleep(0.3)
    task.cancel()
    with pytest.raises(asyncio.CancelledError):
        await task


async def dropped(task):
    """Leaves the task unfinished: at its end, asyncio.run cancels it, as after Ctrl-C."""
    await asyncio.sleep(0.3)


def by_asyncio(call, end=waited_for, to_thread=ffosolve.to_thread):
    """Lets a task of asyncio make a call in a thread. Once it has begun, `end` ends the task, after 0.3 seconds."""
    has_begun, raised = threading.Event(), []

    def begin():
        has_begun.set()
        try:
            call()
        except BaseException as error:
            raised.append(type(error))
            raise

    async def main():
        task = asyncio.create_task(to_thread(begin))
        await asyncio.to_thread(has_begun.wait)
        await end(task)

    # A call that goes on would keep asyncio from ending.
    with timer(LATE / 2, lambda: [os.kill(process, signal.SIGKILL) for process in children()]):
        asyncio.run(main())
    assert raised == [CancelledError if to_thread is ffosolve.to_thread else ffosolve.TimedOut]


@pytest.mark.parametrize("leave", [by_timeout, by_signal, by_ctrl_c, by_asyncio])
@each_call
def test_a_call_that_is_left_ends_at_once_and_stops(name, threads, leave, solver):
    begun, before = time.monotonic(), worked()
    leave(lambda **how: find(name, threads, solver, [EASY, HOPELESS, HOPELESS], **how))
    assert worked() - before < 2.3 * threads  # the clock would also count what other programs do
    assert 0.3 <= time.monotonic() - begun < LATE / 2


@pytest.mark.parametrize("end", [waited_for, cancelled, dropped])
def test_a_call_ends_with_its_task_even_among_brief_ones_but_in_another_thread_only_by_its_timeout(end, solver):
    by_asyncio(lambda: solver.solve(HOPELESS), end)
    by_asyncio(lambda: [solver.solve(EASY) for _ in iter(bool, True)], end)
    by_asyncio(lambda: solver.solve(HOPELESS, timeout=1), end, asyncio.to_thread)


def test_to_thread_does_what_that_of_asyncio_does(solver):
    assert [(it.name, it.kind) for it in inspect.signature(ffosolve.to_thread).parameters.values()] == [
        (it.name, it.kind) for it in inspect.signature(asyncio.to_thread).parameters.values()]
    known = contextvars.ContextVar("known")

    def call(*given, **named):
        known.set("changed")
        return threading.get_ident(), given, named

    async def main():
        known.set("kept")
        thread, *found = await ffosolve.to_thread(call, 1, func=known.get)
        assert (thread != threading.get_ident(), found, known.get()) == (True, [(1,), {"func": known.get}], "kept")
        assert await ffosolve.to_thread(known.get) == "kept"
        with pytest.raises(ffosolve.SharedSquare):
            await ffosolve.to_thread(solver.solve, Position(3, 2))
        first = asyncio.create_task(ffosolve.to_thread(solver.solve, HOPELESS))
        answers = asyncio.gather(*(ffosolve.to_thread(solver.solve, it, timeout=LATE) for it in (EASY, HARD, EASY)))
        await cancelled(first)
        assert await answers == solver.solve_all([EASY, HARD, EASY])

    asyncio.run(main())


def test_a_failed_task_of_a_group_ends_the_calls_of_the_others(solver):
    async def main():
        async with asyncio.TaskGroup() as group:
            for position in (HOPELESS, HOPELESS, Position(3, 2)):
                group.create_task(ffosolve.to_thread(solver.solve, position))

    with pytest.raises(BaseException) as caught:
        asyncio.run(main())
    assert [type(error) for error in caught.value.exceptions] == [ffosolve.SharedSquare]


def rows(name, threads, solver, positions, **how):
    """Makes a call for many positions. Returns a list with what it finds for each."""
    found = find(name, threads, solver, positions, **how)
    if name.endswith("arrays"):
        found = [tuple(map(int, row)) for row in (zip(*found) if name == "solve_arrays" else found)]
    return found


TOO_LONG = {"solve_arrays": (ffosolve.NO_SCORE, 0, 0), "move_scores_arrays": (ffosolve.NO_SCORE,) * 64}


@on_threads
@pytest.mark.parametrize("name", MANY)
def test_a_position_that_takes_longer_than_each_may_has_no_result_and_the_others_have_theirs(name, threads, solver):
    """One with at most 14 empty squares is solved in any case."""
    known = {it: rows(name, threads, solver, [it])[0] for it in (EASY, QUICK)}
    for each, given in ((0.3, [EASY, HOPELESS, QUICK, HOPELESS, EASY]), (0, [QUICK, HARD, *[EASY] * 600])):
        found = rows(name, threads, solver, given, each=each, timeout=LATE)
        assert found == [known.get(it, TOO_LONG.get(name)) for it in given]


@on_threads
@pytest.mark.parametrize("name", LISTS)
def test_a_list_keeps_what_is_solved_before_its_timeout(name, threads, solver):
    """While some threads wait for a program, another one solves what needs none."""
    with pytest.raises(ffosolve.TimedOut) as caught:
        find(name, threads, solver, given := [HARD, HARD, HOPELESS, HOPELESS, EASY], timeout=2)
    count = 2 if threads == 1 else 3
    for error in (caught.value, pickle.loads(pickle.dumps(caught.value))):
        assert str(error) == f"not finished within 2 seconds; positions solved: {count} of 5"
        with mock.patch.object(Solver, name, lambda *_, **how: error.found):
            found = rows(name, threads, solver, given)
        assert (error.done, found[2:4]) == (count, [TOO_LONG.get(name)] * 2)
    solved = rows(name, threads, solver, [HARD, HARD, EASY])
    assert (found[:2], found[4:]) == (solved[:2], solved[2:] if threads > 1 else found[2:3])


@counts_starts
@pytest.mark.parametrize("count, empties, calls", [
    (1, 14, 1), (1, 15, 0), (2, 14, 2), (16, 12, 1), (17, 12, 2), (4096, 8, 16), (4097, 2, 17)])
def test_only_brief_calls_are_made_without_another_process(started, count, empties, calls, solver, monkeypatch):
    """Each call is for as many positions as can be: so many `calls`, or otherwise a process."""
    made, discs = mock.Mock(wraps=_processes.search), 2**(64 - empties) - 1
    monkeypatch.setattr(_processes, "search", made)
    solver.solve_all([Position(discs & 0x5555555555555555, discs & 0xAAAAAAAAAAAAAAAA)] * count)
    assert (made.call_count, started.call_count) == (calls, 0 if calls else 1)
    assert all(_processes.is_brief(len(call.args[4]), empties) for call in made.call_args_list)


@on_threads
@pytest.mark.parametrize("leave", [lambda answers: answers.close(), lambda answers: None], ids=["closed", "dropped"])
def test_an_iterator_that_is_left_stops(threads, leave, solver):
    answers = solver.solve_iter([EASY, *[HARD] * 20, HOPELESS], threads=threads)
    assert next(answers) == ANSWER
    leave(answers)


@on_threads
def test_an_iterator_yields_what_is_finished_before_the_timeout(threads, solver):
    found, positions = [], [EASY, HARD, EASY, HARD, EASY, HOPELESS]
    with pytest.raises(ffosolve.TimedOut, match="^not finished within 8 seconds; positions solved: 5$") as caught:
        for answer in solver.solve_iter(positions, threads=threads, timeout=8):
            found.append(answer)
    assert (found, caught.value.done, caught.value.found) == (solver.solve_all(positions[:5]), 5, None)


def test_a_result_that_is_there_is_returned_whatever_the_time(solver):
    results = queue.SimpleQueue()
    results.put([ANSWER])
    assert _bulk.result_of(results, solver._call(0)) == [ANSWER]


def test_a_waiting_call_looks_whether_it_has_to_stop_as_often_as_the_help_says(solver):
    assert "within half a second" in ffosolve.__doc__ and _processes.CHECK_SECONDS == _bulk.CHECK_SECONDS <= 0.5
    assert solver._call(None).wait_seconds() <= 0.5


@on_threads
@pytest.mark.parametrize("position, count", [(HARD, 1000), (QUICK, 500_000)], ids=["hard", "quick"])
@pytest.mark.parametrize("leave", [by_timeout, by_signal, by_ctrl_c])
@pytest.mark.parametrize("name", MANY)
def test_a_call_for_many_positions_stops_between_them_and_has_one_timeout(name, leave, position, count, threads):
    """Without a table, HARD takes some hundredths of a second. An iterator solves QUICK ones in brief calls."""
    leave(lambda **how: find(name, threads, Solver(entries=0), [position] * count, **how))


@pytest.mark.parametrize("leave", [by_signal, by_ctrl_c])
def test_a_call_for_one_position_without_a_table_stops(leave):
    position = Position.from_obf("--O-X---O-OOX-XX-OOOOXXOXXOXXOOO-OXOXOOO-OOXXOOO--OOXO----O--O-- O;")  # takes seconds
    leave(lambda: Solver(entries=0, max_empties=21).solve(position))


@each_call
def test_a_wrong_timeout_is_refused(name, threads, solver):
    for it, error, why in ((-1, ValueError, "at least 0, not -1"), (float("nan"), ValueError, "at least 0, not nan"),
                           ("1", TypeError, "a number of seconds, not '1'")):
        for limit in ["timeout", *["each"] * (name in MANY)]:
            with pytest.raises(error, match=f"^{limit} is {why}$"):
                find(name, threads, solver, [EASY], **{limit: it})
    with pytest.raises(TimeoutError, match="^not finished within 0 seconds"):
        find(name, threads, solver, [EASY], timeout=0)


@counts_starts
@pytest.mark.parametrize("scoring", ffosolve.Scoring)
@pytest.mark.parametrize("how", [{}, {"timeout": 100}], ids=["", "timeout"])
def test_another_process_finds_what_this_one_finds_even_with_a_timeout(started, how, scoring, monkeypatch):
    def found(**how):
        return [str(find(*call, Solver(scoring=scoring), positions, **how))
                for call in CALLS for positions in ([EASY, HARD, HARD], [HARD, EASY])]

    of_others = found(**how)
    assert started.call_count > len(CALLS)
    monkeypatch.setattr(_processes, "is_brief", lambda *_: True)
    assert found() == of_others


STAND_IN = """#!{python}
import os, sys
name, words = os.path.basename(sys.argv[0]), sys.argv[1:]
if words == ["--version"]:
    sys.exit(print(name, "{version}"))
book, lines = open(words.pop()).read() if "--book-in" in words else "", sys.stdin.read()
print([name, *words, book, lines], file=open("{log}", "a"))
if "--table=77" in words:
    sys.exit(name + ": out of memory")
print(end="[1]\\n" * (name == "ffosolve"))
for number, line in enumerate(lines.splitlines()):
    print(*[line, f"B1:{{number:+03}}; A1:-64;"] if name == "ffoscores" else [1, f"{{number:+03}}", "B1,H8 unlisted"])
print(end="solved\\n" * (name == "ffosolve"))
"""


def with_programs(folder, version, lib="lib"):
    """Returns the path of a copy of the library, in `lib`, beside which `bin` has stand-ins of a version for both
    programs. They write what they are asked to `log`, find the index of each position, and refuse 77 entries."""
    (folder / lib).mkdir(parents=True)
    for name in ("bin/ffosolve", "bin/ffoscores"):
        (folder / name).parent.mkdir(exist_ok=True)
        (folder / name).write_text(STAND_IN.format(python=sys.executable, version=version, log=folder / "log"))
        (folder / name).chmod(0o755)
    return shutil.copy(Solver()._library._name, folder / lib / "it.so")


def test_another_process_gets_each_argument_and_returns_each_status(tmp_path, monkeypatch):
    monkeypatch.setattr(os, "sched_getaffinity", lambda _: {1, 3, 5})
    library = with_programs(tmp_path, Solver().library_version)
    solver, both = Solver(library, scoring=2, entries=5, max_empties=60), [Position(2**63 + 9, 6), Position(12, 3)]
    lines = [position.to_obf("X") + "\n" for position in both]
    assert solver.confirm(both[0], Answer(-30, Kind.PASS, 2**62), threads=3) == Answer(0, Kind.MOVES, 2**63 + 2)
    assert solver.confirm(both[0], Answer(65, Kind.PASS, 0)) == Answer(0, Kind.MOVES, 2**63 + 2)
    assert [answer.score for answer in solver.solve_all(both, threads=99)] == [0, 1]
    assert [answer.score for answer in solver.solve_iter(both)] == [0, 0]  # of a program for each
    assert solver.move_scores_all(both, threads=None) == [{"A1": -64, "B1": 0}, {"A1": -64, "B1": 1}]
    asked = [eval(line) for line in (tmp_path / "log").read_text().splitlines()]
    book = f"% ffobook 2 sign\n{both[0].canonical().to_obf()} PS:-30;\n"
    options = ["--table=5", "--scoring=sign", "--max-empties=60"]
    assert asked == [
        ["ffosolve", "--workers=2", *options, "--book-in", book, lines[0]],
        ["ffosolve", "--workers=0", *options, "", lines[0]], ["ffosolve", "--workers=64", *options, "", "".join(lines)],
        *(["ffosolve", "--workers=0", *options, "", line] for line in lines),
        ["ffoscores", "--workers=2", *options, "", "".join(lines)]]
    for name, threads in CALLS:
        with pytest.raises(ffosolve.NoMemory):
            find(name, threads, Solver(library, entries=77, max_empties=60), both)


def test_a_program_is_found_beside_a_library_that_is_found_by_its_name_or_on_the_path(solver, tmp_path, monkeypatch):
    """Since the library is loaded, the system's loader finds it by name wherever it is."""
    library = with_programs(tmp_path, solver.library_version)
    monkeypatch.setenv("FFOSOLVE_LIBRARY", _library.FILE_NAME)
    monkeypatch.setenv("PATH", str(shutil.move(tmp_path / "bin", tmp_path / "elsewhere")))
    assert Solver().solve(HARD, timeout=LATE) == solver.solve(HARD)
    assert Solver(library).solve(HARD, timeout=LATE) == Answer(0, Kind.MOVES, 2**63 + 2)


@pytest.mark.parametrize("lib", ["lib", "lib64", "lib/x86_64-linux-gnu", "lib64/glibc-hwcaps/x86-64-v3"])
def test_a_program_is_found_in_bin_beside_each_folder_for_libraries(lib, solver, tmp_path, monkeypatch):
    monkeypatch.setenv("PATH", "")
    found = Solver(with_programs(tmp_path, solver.library_version, lib)).solve(HARD, timeout=LATE)
    assert found == Answer(0, Kind.MOVES, 2**63 + 2)


def test_the_threads_of_a_call_share_one_program_at_a_time_and_a_program_takes_as_long_a_list_as_it_may(solver):
    """Each thread would give another program a table and all threads of the call."""
    at_once, most = [], []

    def find_slowly(*given):
        at_once.append(0)
        most.append(len(at_once))
        time.sleep(0.1)
        FIND(*given)
        at_once.pop()

    with mock.patch.object(_processes.Process, "find", autospec=True, side_effect=find_slowly):
        assert len({*solver.solve_all([HARD] * 4, threads=3, each=LATE)}) == 1
        assert solver.solve_all([HARD, *[EASY] * 15_420], threads=3)[1:] == [ANSWER] * 15_420
    assert most == [1] * 5


def test_calls_of_several_threads_do_not_stop_each_other(solver):
    with ThreadPoolExecutor(3) as pool:
        calls = [pool.submit(solver.solve_all, [HARD] * 4) for _ in range(3)]
        for _ in range(5):
            with pytest.raises(TimeoutError):
                solver.solve_all([HOPELESS] * 2, threads=2, timeout=0.05)
    assert [call.result() for call in calls] == [[solver.solve(HARD)] * 4] * 3


@pytest.mark.parametrize("name, threads, number", [*((*call, 9) for call in CALLS), ("solve", 1, 15)])
def test_an_ended_process_is_reported_and_the_next_call_starts_another(name, threads, number, solver):
    with ThreadPoolExecutor(1) as pool:
        call = pool.submit(find, name, threads, solver, [EASY, HOPELESS, HOPELESS])
        while not call.done():
            time.sleep(0.1)
            for process in children():
                with contextlib.suppress(ProcessLookupError):
                    os.kill(process, number)
    with pytest.raises(ChildProcessError, match=f"^the process that solved was ended by signal {number}$"):
        call.result()
    assert Solver().solve(HARD) == Solver(entries=0).solve(HARD)


@on_threads
@pytest.mark.parametrize("does, timeout, error, why", [
    ("kill -9 $$", None, ChildProcessError, "the process that solved was ended by signal 9"),
    ("exec sleep 600", 0.3, TimeoutError, "not finished within 0.3 seconds; positions solved: 0 of 2")])
def test_a_call_stops_if_its_program_does_not_tell_its_version(does, timeout, error, why, threads, tmp_path):
    library = with_programs(tmp_path, None)
    (tmp_path / "bin/ffosolve").write_text(f"#!/bin/sh\n{does}\n")
    with pytest.raises(error, match=f"^{why}$"):
        Solver(library).solve_all([HARD] * 2, threads=threads, timeout=timeout)


def test_a_process_whose_call_is_left_before_it_gets_its_list_ends(solver, monkeypatch):
    monkeypatch.setattr(_processes.Process, "find", mock.Mock(side_effect=Left))
    with pytest.raises(Left):
        solver.solve(HARD)
    gc.collect()


def test_an_ended_process_is_reported_even_if_its_status_is_lost(solver):
    before = signal.signal(signal.SIGCHLD, signal.SIG_IGN)
    with pytest.raises(ChildProcessError), timer(0.3, lambda: [os.kill(it, signal.SIGKILL) for it in children()]):
        solver.solve(HOPELESS)
    signal.signal(signal.SIGCHLD, before)


@each_call
def test_left_calls_end_in_time_and_keep_no_descriptors_no_dead_processes_and_no_memory(name, threads, solver):
    """Some of these calls end in time even on a busy machine."""
    assert _processes.SolverCall(None, 0.05).wait_seconds() <= 0.05
    this, seconds, memory = psutil.Process(), [], []
    before = this.num_fds()
    tracemalloc.start()
    for _ in range(40):
        begun = time.monotonic()
        with pytest.raises(TimeoutError):
            find(name, threads, solver, [HOPELESS], timeout=0.05)
        seconds.append(time.monotonic() - begun)
        gc.collect()
        memory.append(tracemalloc.get_traced_memory()[0])
    tracemalloc.stop()
    wait_until(lambda: (this.num_fds(), this.children()) == (before, []), this.num_fds, this.children)
    assert (min(seconds) < 0.19, min(memory[30:]) - min(memory[5:20]) < 18_000) == (True, True), (seconds, memory)


def test_a_forked_process_has_processes_of_its_own(solver):
    wanted = solver.solve(HARD)
    with timer(0, pytest.raises, ChildProcessError, solver.solve, HOPELESS):
        wait_until(lambda: _processes.PROCESSES)
        (process,) = children()
        forked = os.fork()
        if not forked:
            with contextlib.suppress(BaseException):
                assert not _processes.PROCESSES and solver.solve(HARD) == wanted
                assert ThreadPoolExecutor(1).submit(solver.solve, HARD).result(LATE / 4) == wanted
                os._exit(0)
            os._exit(1)
        assert os.waitpid(forked, 0)[1] == 0
        assert (solver.solve(HARD), children()) == (wanted, [process])
        os.kill(process, signal.SIGKILL)


def test_processes_that_are_forked_while_programs_start_do_not_keep_calls_from_ending(solver):
    forked, end = [], time.monotonic() + LATE / 3
    with ThreadPoolExecutor(3) as pool:
        calls = [pool.submit(lambda: list(solver.solve_iter([HARD] * 20))) for _ in range(3)]
        while not all(call.done() for call in calls) and time.monotonic() < end:
            if len(forked) < 50:
                forked.append(os.fork() or (time.sleep(600), os._exit(0)))
            time.sleep(0.01)
        have_ended = [call.done() for call in calls]
        for child in forked:
            os.kill(child, signal.SIGKILL)
            os.waitpid(child, 0)
    assert (have_ended, [call.result() for call in calls]) == ([True] * 3, [[solver.solve(HARD)] * 20] * 3)


@pytest.mark.parametrize("version", [None, "9.9.9"])
def test_without_a_program_of_its_version_a_call_is_made_but_has_no_timeout(version, tmp_path, solver, monkeypatch):
    library, path = with_programs(tmp_path, version), str(tmp_path / "bin") if version else ""
    monkeypatch.setenv("PATH", path)
    if not version:
        shutil.rmtree(tmp_path / "bin")
    alone = Solver(library)
    assert [alone.solve(HARD), *alone.solve_all([HARD] * 2, threads=2)] == [solver.solve(HARD)] * 3
    wanted = f"ffosolve {alone.library_version} is neither beside {tmp_path}/lib nor on the path"
    with pytest.raises(FileNotFoundError, match=f"^no process can be started: {wanted}$"):
        alone.solve(HARD, timeout=100)
    assert not (tmp_path / "log").exists()


def test_a_best_line_claims_the_score_that_is_known_and_has_one_timeout(monkeypatch):
    claims, calls = [], mock.Mock(wraps=_solvers.SolverCall)
    monkeypatch.setattr(_processes, "is_brief", lambda *_: True)
    monkeypatch.setattr(_solvers, "SolverCall", calls)
    solver = Solver()
    solver._library = mock.Mock(wraps=solver._library)
    solver._library.ffosolve_confirm.side_effect = lambda *words: (claims.append(words[3].score), mock.DEFAULT)[1]
    assert solver.best_line(EASY, timeout=LATE) == [("H1", 62), ("PS", -62), ("A1", 62)]
    assert claims == [-62, 62, -62]
    assert [call.args[1:3] for call in calls.call_args_list] == [(LATE, 1)]


PROGRAM = f"""if True:
    import os, signal, sys, threading, time
    from ffosolve import START, Position, Solver, _processes
    solver, hard = Solver(max_empties=60), Position({HARD.own}, {HARD.opp})

    def begin():
        solver.solve(hard)
        threading.Thread(target=solver.solve, args=[START], daemon=True).start()
        while not _processes.PROCESSES:
            time.sleep(0.5)
        print(*(it.process.pid for it in _processes.PROCESSES), flush=True)

"""


def ran(code, **how):
    packages = {"PYTHONPATH": os.path.dirname(os.path.dirname(ffosolve.__file__))}
    return subprocess.run([sys.executable, "-c", PROGRAM + code], env={**os.environ, **packages}, cwd="/",
                          capture_output=True, text=True, timeout=LATE, **how)


@pytest.mark.parametrize("code", [
    "    begin()", "    begin(); os._exit(0)", "    begin(); sys.exit('failed')",
    "    begin(); os.kill(os.getpid(), signal.SIGKILL)", """
    begin()
    child = os.fork()
    if not child:
        os.closerange(1, 3)
        time.sleep(600)
    print(child, flush=True)
    os.kill(os.getpid(), signal.SIGKILL)
"""])
def test_the_processes_end_with_the_program_even_if_one_that_it_has_forked_goes_on(code):
    process, *forked = map(int, ran(code).stdout.split())
    wait_until(lambda: state(process) == psutil.STATUS_ZOMBIE)
    for child in forked:
        assert state(child) != psutil.STATUS_ZOMBIE
        os.kill(child, signal.SIGKILL)


def test_a_program_ends_with_an_iterator_half_way():
    found = ran("    answers = solver.solve_iter(iter(lambda: hard, None), threads=2); print(next(answers))")
    assert (found.returncode, found.stdout) == (0, f"{Solver().solve(HARD)}\n")


def test_an_object_that_is_deleted_while_python_ends_may_call_without_a_timeout():
    code = """
    class Last:
        def __del__(self):
            print(sys.is_finalizing(), *solver.solve_all([hard] * 2, threads=2))
            solver.solve(hard, timeout=9)

    last = Last()
"""
    found, answer = ran(code), Solver().solve(HARD)
    assert (found.returncode, found.stdout) == (0, f"True {answer} {answer}\n")
    assert found.stderr.splitlines()[-1] == "OSError: Python is ending, so it can't start a process"


def test_a_call_leaves_the_signals_of_its_thread_as_they_are(solver):
    for blocked in ({signal.SIGINT}, set()):
        before = signal.pthread_sigmask(signal.SIG_SETMASK, blocked)
        solver.solve(HARD)
        assert signal.pthread_sigmask(signal.SIG_SETMASK, before) == blocked


def test_a_program_that_does_not_catch_ctrl_c_ends():
    found = ran("    threading.Timer(0.5, os.kill, (os.getpid(), signal.SIGINT)).start(); solver.solve(START)")
    assert (found.returncode, found.stderr.splitlines()[-1]) == (-signal.SIGINT, "KeyboardInterrupt")


def test_ctrl_c_is_for_the_program_alone():
    """A terminal sends SIGINT to all processes of the program. Here it has a handler, so that a call goes on. The first
    signal comes between two calls, the second one in a call."""
    code = """
    signal.signal(signal.SIGINT, lambda *_: print("interrupted"))
    solver.solve(hard)
    before = set(_processes.PROCESSES)
    os.killpg(os.getpgrp(), signal.SIGINT)
    time.sleep(0.5)
    print(solver.solve(hard).score, set(_processes.PROCESSES) == before)
    threading.Timer(0.5, os.killpg, (os.getpgrp(), signal.SIGINT)).start()
    try:
        solver.solve(START, timeout=5)
    except TimeoutError as error:
        print(error)
"""
    found = ran(code, start_new_session=True)
    wanted = f"interrupted\n{Solver().solve(HARD).score} True\ninterrupted\nnot finished within 5 seconds\n"
    assert (found.stdout, found.stderr) == (wanted, "")


def test_a_call_is_made_if_no_thread_can_be_started():
    """A thread's stack would take more memory than the process may have."""
    def prepare():
        resource.setrlimit(resource.RLIMIT_STACK, (1_000_000_000 << 10, 1_000_000_000 << 10))
        resource.setrlimit(resource.RLIMIT_AS, (500_000_000 << 10, 500_000_000 << 10))

    found = ran(f"    print(solver.solve_all([Position({EASY.own}, {EASY.opp})] * 4097)[-1])", preexec_fn=prepare)
    assert (found.returncode, found.stdout, found.stderr) == (0, "+62 H1\n", "")
