"""Fixtures for all tests, and what no test may do: leave a program running, change what `git status` prints, or be
skipped if the variable CI is true."""
import contextlib
import ctypes
import os
import signal
import subprocess
import sys
import tempfile
from pathlib import Path

import psutil
import pytest

pytest_plugins = ["tests.support", "tests.games", "tests.many", "tests.prefix"]  # fixtures, and what else tests share

ROOT = Path(__file__).parent
PR_SET_CHILD_SUBREAPER = 36  # of prctl(2)


def pytest_configure(config):
    """Makes this process the parent of programs whose parent ends. With PROVE=no, scripts/prove fails where it would
    have to prove. The package for Python calls the library of the checkout, and scripts run with the Python of the
    tests. Variables of a git hook go, new files have the usual modes, and the signals below interrupt the tests and end
    programs, as at a login."""
    if not hasattr(config, "workerinput"):  # workers have the variables of the first process
        python = ROOT / "out/tests/python3"
        python.parent.mkdir(parents=True, exist_ok=True)
        python.write_text(f'#!/bin/sh\nexec "{sys.executable}" "$@"\n')
        python.chmod(0o755)
        os.environ["PATH"] = f"{python.parent}:{os.environ['PATH']}"
    os.environ["PROVE"] = "no"
    os.environ.setdefault("FFOSOLVE_LIBRARY", str(ROOT / "out/library/libffosolve.so"))
    for name in [name for name in os.environ if name.startswith("GIT_")]:
        del os.environ[name]
    os.umask(0o022)
    ctypes.CDLL(None).prctl(PR_SET_CHILD_SUBREAPER, 1, 0, 0, 0)
    for number in (signal.SIGINT, signal.SIGTERM, signal.SIGHUP, signal.SIGQUIT):
        signal.signal(number, signal.default_int_handler)


def programs():
    """Returns the processes below this one, ended ones among them if their parent has not noticed."""
    return psutil.Process().children(recursive=True)


def pytest_unconfigure():
    """Kills what is left, as after an interrupt."""
    while left := programs():
        for program in left:
            with contextlib.suppress(psutil.NoSuchProcess):
                program.kill()
        psutil.wait_procs(left)


@pytest.fixture(scope="module", autouse=True)
def ends_its_programs():
    """Fails a module that leaves a program running for five seconds, and kills the program."""
    yield
    _, left = psutil.wait_procs(programs(), timeout=5)
    named = [program.as_dict(["pid", "cmdline"]) for program in left]
    pytest_unconfigure()
    assert not named, f"programs that the module's tests left running: {named}"


def new_folder():
    """A new folder that everybody may read. It is removed after the test or, for `shared_folder`, after the module."""
    with tempfile.TemporaryDirectory(prefix="ffosolve-test-") as name:
        os.chmod(name, 0o755)
        yield Path(name)


own_folder, shared_folder = pytest.fixture(new_folder), pytest.fixture(scope="module")(new_folder)


@pytest.fixture
def folder(own_folder, monkeypatch):
    """A new folder in which the test runs."""
    monkeypatch.chdir(own_folder)
    return own_folder


@pytest.fixture
def start():
    """A function that starts a command with its output captured and returns its Popen, which is killed after the test.
    `how` are keyword arguments of subprocess.Popen, which change this or add to it."""
    with contextlib.ExitStack() as stack:
        def begin(*words, **how):
            how = {"stdin": subprocess.DEVNULL, "stdout": subprocess.PIPE, "stderr": subprocess.PIPE, **how}
            ran = subprocess.Popen(list(map(str, words)), **how)
            stack.callback(lambda: (ran.poll() is None and ran.kill(), ran.communicate()))
            return ran

        yield begin


def status():
    return subprocess.run("git status --porcelain 2>&1", shell=True, cwd=ROOT, capture_output=True, text=True).stdout


@pytest.hookimpl(hookwrapper=True)
def pytest_runtest_makereport():
    """Makes a skipped test or module a failure if the variable CI is true."""
    report = (yield).get_result()
    if report.skipped and os.environ.get("CI") == "true":
        report.outcome, report.longrepr = "failed", f"{report.longrepr[2]}, but with CI=true no test is skipped"


pytest_make_collect_report = pytest_runtest_makereport


def pytest_collection_modifyitems(items):
    """Puts the modules that take longest first, so that no processor is left with one of them at the end."""
    items.sort(key=lambda item: item.path.stem not in ("test_many_cluster", "test_time"))


def pytest_sessionstart(session):
    session.config.status = status()


def pytest_sessionfinish(session):
    """Fails, with a test of its own, a run that changed what `git status` prints."""
    if not hasattr(session.config, "workerinput") and status() != session.config.status:
        text = f"git status before the tests:\n{session.config.status}\nafter:\n{status()}"
        report = pytest.TestReport("git status", ("", 0, ""), {}, "failed", text, "teardown")
        session.config.hook.pytest_runtest_logreport(report=report)
        session.exitstatus = pytest.ExitCode.TESTS_FAILED
