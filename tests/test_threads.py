"""Threads of the programs: how many run, that the output is the same for any number, and that they end."""
import itertools
import os
import random
import signal
import time
from pathlib import Path

import pytest

from tests.support import (ROOT, SECONDS, built, ends, limited, positions, preload, processes_in, refuse_threads, run,
                           stored, wait_until, write)

pytestmark = pytest.mark.usefixtures("folder")
WORKERS = (0, 1, 3, 64)
KINDS, SCORES = stored("examples", "kinds.obf"), stored("examples", "kinds.scores")
DEEP = positions(40, 7, 13)
HOURS = b"-" * 27 + b"OX------XO" + b"-" * 27 + b" X;\n"  # a position that takes hours
HARD = b"-XXXXX----XOOX--XXXXOOOO-OXOOOO-OOXOOX--OOX-OOOOOXXXXXX-X----XXX O\n"  # 17 empty squares, 0.2 seconds
# Positions with two empty squares; all but the last have their scores.
EASY = [*stored("examples", "first.obf").splitlines(True)[1:], b"--OOOOO" + b"X" * 57 + b" X\n"]


def solve(*words, **how):
    """Runs ffosolve, its book on standard error. Returns ((report, book), the number of threads that it started)."""
    words = (built(), "--book-out", "/dev/stderr", *words)
    ran = run(*words, env=preload(Path.cwd(), COUNTED="yes"), check=True, **how)
    return (ran.stdout, ran.stderr.replace(b"thread ", b"")), ran.stderr.count(b"thread ")


@pytest.mark.parametrize(("texts", "numbers", "times"), [
    ([HARD + b"".join(EASY) + HARD, b"".join(EASY) + HARD], (0, 1, 4, 64), 1),
    ([b"".join(EASY[number % 4:] + EASY) for number in range(64)], (64,), 100),
])
def test_each_file_and_each_worker_has_a_thread_and_the_report_is_the_same_without_any(texts, numbers, times):
    files = [write(f"{number}.obf", text) for number, text in enumerate(texts)]
    wanted, _ = solve(*files)
    assert wanted[0].endswith(b"refused 0\n") and wanted[0].count(b"[") == len(files)
    for workers in numbers:
        words = ["--workers", workers, *files]
        for _ in range(times):
            assert solve(*words) == (wanted, workers + len(files))
        assert solve(*words, preexec_fn=refuse_threads) == (wanted, 0)
        ends((0, "[1]\nsolved 0 refused 0\n", ""), built(), "--workers", workers, "/dev/null")  # without a position


@pytest.mark.parametrize("at, settings", enumerate(itertools.product(("winner", "discs", "sign"), (0, 16, 65_536))))
def test_threads_that_share_a_position_give_the_report_and_book_of_one_thread(at, settings):
    scoring, entries = settings
    words = ("--scoring", scoring, "--table", entries, "--workers")
    for line in positions(200, 14, 18).splitlines(True)[at::9]:  # a ninth of them for each of the settings
        wanted, _ = solve(*words, 0, input=line)
        assert wanted[0].endswith(b"solved 1 refused 0\n")
        for workers in (1, 3, 7):
            assert solve(*words, workers, input=line)[0] == wanted


def shuffled(seed):
    """Makes two lists of positions that take differently long, and lines that are refused or skipped."""
    mixed = (positions(40, 1, 9) + positions(24, 10, 11) + positions(6, 12, 13)).splitlines(True)
    mixed += [b"\n", b"% no position\n", b"XX\n", HOURS] * 3
    random.Random(seed).shuffle(mixed)
    return b"".join(mixed[:seed]), b"".join(mixed[seed:])


@pytest.mark.parametrize(("lists", "prepare"), [
    pytest.param([DEEP[:-1], b"", b"\n", KINDS, DEEP[:68], positions(300, 1, 8), KINDS[:-1]], None, id="odd files"),
    pytest.param([positions(1, 16, 16) + EASY[0] * 9000 + DEEP], None, id="lines that wait for a hard position"),
    pytest.param([DEEP], refuse_threads, id="no thread can be started"),
    pytest.param([DEEP], limited(RLIMIT_AS=30_000 * 1024), id="memory for threads runs out"),
    *(pytest.param(shuffled(seed), None, id=f"shuffled lines {seed}") for seed in range(25)),
])
def test_scores_are_the_same_with_any_number_of_workers(lists, prepare):
    words = (built("ffoscores"), *(write(f"{number}.obf", text) for number, text in enumerate(lists)), "--workers")
    printed = run(*words, 0).stdout
    assert printed.count(b"\n") == sum(len(text.splitlines()) for text in lists)
    for workers in WORKERS:
        ends((int(b"% refused: " in printed), printed, b""), *words, workers, preexec_fn=prepare)


def test_each_of_many_short_runs_ends():
    for _ in range(500):  # one in fifteen hung while a fault left a thread asleep
        ends((1, SCORES, b""), built("ffoscores"), "--workers", 3, ROOT / "examples/kinds.obf")


def begin(start, text, workers, **how):
    words = (built("ffoscores"), "--max-empties", 60, "--workers", workers, write("list.obf", text))
    return start(*words, **how)


@pytest.mark.parametrize("workers", WORKERS)
def test_n_workers_score_n_plus_one_lines_at_once_and_print_each_as_soon_as_those_before_are_scored(start, workers):
    known = [EASY[0], *positions(24, 10, 13).splitlines(True), b"% next\n"]
    program = begin(start, b"".join([*known, HOURS, EASY[0], HOURS * 70]), workers)
    assert [program.stdout.readline()[:66] for _ in known] == [line[:66] for line in known]
    threads = workers + 2 if workers else 1  # 0 workers start no thread
    wait_until(lambda: len(os.listdir(f"/proc/{program.pid}/task")) >= threads)
    time.sleep(1)  # in which one thread too many could start
    assert len(os.listdir(f"/proc/{program.pid}/task")) == threads
    program.send_signal(signal.SIGINT)
    assert (program.stdout.read(), program.wait(SECONDS)) == (b"", -signal.SIGINT)


@pytest.mark.parametrize("workers", WORKERS[1:])
def test_a_reader_that_leaves_ends_the_program_within_positions_that_take_hours(start, workers):
    program = begin(start, EASY[0] + positions(100, 14, 15) + HOURS * 9, workers)
    assert program.stdout.readline() == EASY[0]
    program.stdout.close()
    assert (program.wait(SECONDS), program.stderr.read()) == (3, b"ffoscores: cannot write standard output\n")


def test_an_interrupt_from_the_terminal_leaves_no_process(folder, start):
    write("list.obf", EASY[0] + HOURS * 9)
    words = f"{ROOT}/bin/ffoscores --max-empties 60 --workers 3 list.obf | cat"
    shell = start("sh", "-c", words, start_new_session=True)
    assert shell.stdout.readline() == EASY[0]
    os.killpg(shell.pid, signal.SIGINT)
    assert shell.stdout.read() == b""
    shell.wait(SECONDS)
    wait_until(lambda: not processes_in(folder))


def lines(empties, count=8):
    return positions(count, empties, empties)


@pytest.mark.parametrize(("text", "threads"), [
    pytest.param(lines(16), 8, id="each line of 16 empty squares has a thread"),
    pytest.param(lines(12), 8, id="and of 12"),
    pytest.param(lines(11, 9), 2, id="eight lines of 11 share a thread"),
    pytest.param(lines(10, 40), 5, id="forty of 10 have five"),
    pytest.param(lines(8), 1, id="eight lines of 8 have one"),
    pytest.param(lines(7), 0, id="a line of 7 has none"),
    pytest.param(lines(10, 3) + lines(12, 2) + lines(10, 3), 4, id="a line of 12 has one behind and before others"),
    pytest.param(b"".join(b" \t" * 32 + line for line in lines(12).splitlines(True)), 8, id="blanks don't count"),
    pytest.param(b"".join(b" %% %b\n" % (b"-" * 16) for _ in range(8)), 0, id="nor do comments"),
    pytest.param(HOURS * 8, 0, id="nor lines that are refused"),
    pytest.param(lines(16, 1), 1, id="one thread scores a line of 16"),
    pytest.param(HARD, 8, id="eight threads share a line of 17"),
    pytest.param(lines(12) + HARD, 16, id="once the lines before have their threads"),
])
def test_seven_workers_score_a_list(folder, text, threads):
    ran = run(built("ffoscores"), "--workers", 7, input=text, env=preload(folder, COUNTED="yes"))
    assert (ran.stdout.count(b"\n"), ran.stderr) == (text.count(b"\n"), b"thread " * threads)


@pytest.mark.parametrize(("entries", "threads"), [(0, 1), (4095, 1), (4096, 4)])
def test_a_line_is_shared_over_a_table_of_4096_entries(folder, entries, threads):
    ran = run(built("ffoscores"), "--workers", 3, "--table", entries, input=HARD, env=preload(folder, COUNTED="yes"))
    assert (ran.stdout[:67], ran.stderr) == (HARD[:66] + b";", b"thread " * threads)


def test_a_second_thread_for_a_line_that_cannot_be_started_is_not_asked_for_again_at_once(folder):
    ran = run(built("ffoscores"), "--workers", 3, input=HARD, env=preload(folder, COUNTED="yes", UNSTARTED="2"))
    assert (ran.stdout[:67], ran.stderr) == (HARD[:66] + b";", b"thread ")


def test_hundreds_of_lines_behind_one_that_takes_hours_are_scored_before_more_threads_share_it(folder, start):
    with open("threads", "wb") as to:
        begin(start, HOURS + lines(12, 25) * 20, 3, stderr=to, env=preload(folder, COUNTED="yes"))
    wait_until(lambda: (folder / "threads").read_text().count("thread ") == 504)
    time.sleep(1)  # in which one thread too many could start
    assert (folder / "threads").read_text().count("thread ") == 504
