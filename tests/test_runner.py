"""conftest.py, which refuses what no test may do, and .ci/run, which adds up the counts of `rt ci` and pytest."""
import os
import re
import signal
import sys
from pathlib import Path

import pytest

from tests.support import ROOT, SECONDS, ends, processes_in, run, stored, wait_until, write

NO_CI = {name: text for name, text in os.environ.items() if name != "CI"}
FAULTS = """import os, pathlib, pytest, subprocess, time, unittest
def test_good():
    assert os.system("kill -INT $$") == 2  # an interrupt is not ignored
def test_wrong():
    assert 1 + 1 == 3
def test_hangs():
    time.sleep(100)
def test_changes():
    pathlib.Path(__file__).parents[1].joinpath("new").touch()
def test_skips():
    pytest.skip("no-such is missing")
class Some(unittest.TestCase):
    def test_leaves(self):
        subprocess.run(["sh", "-c", "setsid sleep 1000 &"])
"""


@pytest.fixture
def project(folder):
    run("git", "init", "-q", check=True)
    run("cp", "setup.cfg", ".gitignore", folder, cwd=ROOT, check=True)
    write("conftest.py", re.sub("^pytest_plugins = .*", "", stored("conftest.py").decode(), flags=re.M))
    return folder


@pytest.mark.parametrize("ci, skipped, counts", (
    ({}, set(), "2 failed, 3 passed, 2 skipped, 2 errors"),
    ({"CI": "true"}, {"test_faults.py::test_skips", "test_missing.py"}, "3 failed, 3 passed, 3 errors"),
))
def test_each_fault_of_a_test_is_reported(project, ci, skipped, counts):
    write("tests/test_faults.py", FAULTS)
    write("tests/test_missing.py", "import pytest\npytest.importorskip('no_such')\n")
    words = (sys.executable, "-m", "pytest", "-n", "2", "-o", "timeout=12", "-o", "testpaths=tests")
    ran = run("sh", "-c", 'trap "" INT; exec "$@"', "sh", *words, env={**NO_CI, **ci}, text=True, timeout=5 * SECONDS)
    found = set(re.findall(r"^(?:FAILED|ERROR) (?:tests/)?(\S+)", ran.stdout, re.M))
    wrong = {"test_faults.py::test_wrong", "test_faults.py::test_hangs", "git", "test_faults.py::Some::test_leaves"}
    assert (ran.returncode, found) == (1, wrong | skipped), ran.stdout
    assert re.search(rf"^=+ {counts} in .*=\Z", ran.stdout.strip(), re.M), ran.stdout
    for text in ("?? new", "Timeout >12.0s", "'sleep', '1000'", *(["no-such is missing, but with CI=true"] * bool(ci))):
        assert text in ran.stdout


@pytest.mark.parametrize("kill, number", ((os.killpg, signal.SIGINT), (os.kill, signal.SIGTERM)))
def test_an_interrupt_from_the_terminal_and_a_signal_to_pytest_alone_end_all_processes(project, start, kill, number):
    waits = "touch begun; setsid sleep 1000"
    write("tests/test_waits.py", f"import subprocess\ndef test_a():\n    subprocess.run({waits!r}, shell=True)\n")
    runner = start(sys.executable, "-m", "pytest", "-n", "2", "tests/test_waits.py", start_new_session=True)
    wait_until(Path("begun").exists)
    kill(runner.pid, number)
    assert runner.wait(timeout=SECONDS) != 0
    wait_until(lambda: not processes_in(project))


GOOD = ("7 passed, 0 failed", 0)
PASSED = ("==== 7 passed in 3.20s ====", 0)
NOT_COUNTED = ("0 passed, 0 failed", "killed", "7 passed, 0 failed\\nand more", "== no tests ran in 0.1s ==", "\\n")


@pytest.mark.parametrize("status, last, ci, check", (
    (0, "14 passed, 0 failed", GOOD, PASSED),
    (0, "14 passed, 0 failed", GOOD, ("== 7 passed, 3 skipped, 2 warnings in 3.20s (0:00:03) ==", 0)),
    (1, "13 passed, 1 failed", ("6 passed, 1 failed", 1), PASSED),
    (1, "13 passed, 4 failed", ("6 passed, 1 failed (in 3 s)", 1), ("== 2 failed, 7 passed, 1 error in 3.20s ==", 2)),
    (1, "7 passed, 9 failed", ("0 passed, 9 failed", 1), PASSED),
    (1, "14 passed, 1 failed", GOOD, (PASSED[0], 2)),
    (1, "14 passed, 1 failed", (GOOD[0], 1), PASSED),
    *((1, "7 passed, 1 failed", (text, 0), PASSED) for text in NOT_COUNTED),
    *((1, "7 passed, 1 failed", GOOD, (text, 0)) for text in NOT_COUNTED),
))
def test_ci_run_adds_the_counts_of_both_and_fails_if_either_counts_nothing(folder, status, last, ci, check):
    run("cp", "--parents", ".ci/run", folder, cwd=ROOT, check=True)
    for name, (text, ends_with) in (("rt", ci), ("make", check), ("apt-get", ("", 0))):
        lines = f'[ "$CI" = true ] || exit 9\necho "{name} $*"; printf "{text}\\n"; exit {ends_with}\n'
        write(f"tools/{name}", f"#!/bin/sh\n{lines}")
    ran = run(".ci/run", env={**NO_CI, "PATH": f"{folder}/tools:{os.environ['PATH']}"}, text=True)
    assert (ran.returncode, ran.stdout.splitlines()[-1]) == (status, last), ran
    for text in ("apt-get -q install", "rt ci\n", "make check"):
        assert text in ran.stdout


@pytest.mark.parametrize("words", (["--help"], [""], ["ci", "check"]))
def test_any_argument_of_ci_run_is_refused(folder, words):
    run("cp", "--parents", ".ci/run", folder, cwd=ROOT, check=True)
    usage = "usage: .ci/run (no arguments): runs rt ci and then make check\n"
    ends((2, "", usage), ".ci/run", *words, env={**NO_CI, "PATH": "/usr/bin:/bin"})
    assert not Path("out").exists()


def test_no_program_names_a_temporary_file_that_two_runs_would_share():
    words = ("grep", "-rInE", "--exclude=test_runner.py", r"/tmp/\w|gettempdir", "bin", "scripts", "tests")
    ends((1, "", ""), *words, cwd=ROOT)
