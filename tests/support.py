"""Helpers for all tests: files of the checkout, the built programs, commands with a time limit, and processes."""
import functools
import os
import resource
import shutil
import signal
import subprocess
import tempfile
import time
from pathlib import Path

import psutil
import pytest

from bench import player

ROOT = Path(__file__).resolve().parent.parent
NOBODY = {"user": 65534, "group": 65534, "extra_groups": []} if os.getuid() == 0 else {}  # drops root's rights
SECONDS = 55  # the time limit of a command or a wait, unless a test sets its own
MOST_BYTES = 1_048_576  # the size of the largest file that the programs read, as documented


def need(*tools):
    """Skips the test if one of `tools`, commands or absolute paths of files, is not installed."""
    for tool in tools:
        if not (os.path.exists(tool) if "/" in tool else shutil.which(tool)):
            pytest.skip(f"{tool} is missing")


def stored(*path):
    """Returns the bytes of a file of the checkout; `path` is its relative path, in one or more parts."""
    return ROOT.joinpath(*path).read_bytes()


def worked_rows(name):
    """Reads the table tests/rows/NAME.tsv. Returns the OBF lines in its last column, and {heading: cells} for the other
    columns. Lines and cells are bytes; in a cell, the first 66 bytes (board, side) of the row's line replace `~`."""
    heads, *rows = stored("tests/rows", f"{name}.tsv").removesuffix(b"\n").split(b"\n")
    *heads, _ = heads.decode().split("\t")
    rows = [row.split(b"\t", len(heads)) for row in rows]
    columns = zip(*([cell.replace(b"~", line.removesuffix(b"\r")[:66]) for cell in cells] for *cells, line in rows))
    return [row[-1] for row in rows], dict(zip(heads, columns))


def run(*words, **how):
    """Runs a command and returns its CompletedProcess. By default, its input is empty, its output is captured as bytes,
    and it is killed after SECONDS. `how` are keyword arguments of subprocess.run, which change this or add to it; with
    `check`, a failure shows the output. Skips the test if the command is a name, not a path, and not installed."""
    if how.get("input") is None:
        how.setdefault("stdin", subprocess.DEVNULL)
    how = {"stdout": subprocess.PIPE, "stderr": subprocess.PIPE, "timeout": SECONDS, **how}
    words = [word if isinstance(word, bytes) else str(word) for word in words]
    try:
        return subprocess.run(words, **how)
    except subprocess.CalledProcessError as why:
        raise AssertionError(f"{why.stderr}{why.stdout}{why}") from None
    except FileNotFoundError:
        if "/" not in words[0]:
            need(words[0])
        raise


def write(path, text, mode=None):
    """Writes str or bytes to a file, makes its folder if needed, and returns its Path. By default, `mode` is 0o755 for
    a text that begins with `#!`, and otherwise 0o644."""
    path, text = Path(path), text if isinstance(text, bytes) else text.encode()
    path.parent.mkdir(parents=True, exist_ok=True)
    path.write_bytes(text)
    path.chmod(mode or (0o755 if text.startswith(b"#!") else 0o644))
    return path


@functools.cache
def unshared():
    """The words before a command that may mount file systems and change its root. Skips the test if that is refused."""
    words = ("unshare", *["--map-root-user"] * bool(os.getuid()), "--mount")
    if run(*words, "mount", "-t", "tmpfs", "none", "/tmp").returncode:
        pytest.skip("a right to mount file systems is missing")
    return words


@functools.cache
def positions(*words):
    """Returns the lines of `random_lines` in bench/player.py for COUNT, LEAST, MOST and maybe SEED, as bytes."""
    return "".join(f"{line}\n" for line in player.random_lines(*words)).encode()


def is_v3():
    """Returns whether this machine runs programs for processors of the level x86-64-v3."""
    return b"x86-64-v3 (supported" in run("/lib64/ld-linux-x86-64.so.2", "--help").stdout


def limited(**limits):
    """Returns a function for `preexec_fn` that sets limits of a process by their names in the module `resource`. Past a
    limit RLIMIT_FSIZE, in bytes, no signal ends the process: writing to a file fails with `File too large`."""
    def prepare():
        signal.signal(signal.SIGXFSZ, signal.SIG_IGN)  # by default, the signal for such a write ends the program
        for name, size in limits.items():
            resource.setrlimit(getattr(resource, name), (size, size))

    return prepare


# With it as `preexec_fn`, no thread starts: a thread's stack would take more memory than the process may have.
refuse_threads = limited(RLIMIT_STACK=1_000_000_000 << 10, RLIMIT_AS=500_000_000 << 10)


@functools.cache
def built(name="ffosolve"):
    """Returns a program's path, in the folder that TEST_PROGRAMS in the environment names, or by default in out/, where
    it is linked from what is proved. The test fails if something would have to be proved."""
    if "TEST_PROGRAMS" in os.environ:
        return Path(os.environ["TEST_PROGRAMS"], name)
    run(ROOT / "bin" / name, "/dev/null", check=True, text=True, timeout=None)
    return ROOT / "out" / name


def ends(wanted, *words, **how):
    """Asserts that a command ends with `wanted`: (status, standard output, standard error). Both outputs are str, or
    both bytes; one that goes elsewhere is None."""
    ran = run(*words, **{"text": isinstance(wanted[1], str), **how})
    assert (ran.returncode, ran.stdout, ran.stderr) == wanted, words


def cannot_write(*words):
    """Asserts that a program reports a full or closed standard output, and that SIGPIPE ends it if its output is a pipe
    that is not read any more. `words` are the program's path and its arguments."""
    for output, why in ((">/dev/full", "No space left on device"), (">&-", "it is closed")):
        error = f"{Path(words[0]).name}: cannot write standard output: {why}\n"
        ends((3, "", error), "sh", "-c", f'exec "$0" "$@" {output}', *words)
    reading, writing = os.pipe()
    os.close(reading)
    ends((-signal.SIGPIPE, None, b""), *words, stdout=writing)
    os.close(writing)


def wait_until(holds, seconds=SECONDS):
    """Calls `holds` again and again until it returns a true value; fails if this takes longer than `seconds`."""
    end = time.monotonic() + seconds
    while not holds():
        assert time.monotonic() <= end, f"this did not happen within {seconds} seconds: {holds}"
        time.sleep(0.01)


def processes_in(place):
    """Returns {process ID: command line} for other visible processes in folders whose paths begin with `place`."""
    return {it.pid: " ".join(it.info["cmdline"] or ()) for it in psutil.process_iter(["cwd", "cmdline"])
            if str(it.info["cwd"]).startswith(str(place)) and it.pid != os.getpid()}


def preload(folder, **variables):
    """Returns an environment in which programs call the functions of tests/preload.c instead of the system's. It also
    has `variables`, which choose what these functions do. The first call for a `folder` compiles preload.c into it."""
    library = folder / "preload.so"
    if not library.exists():
        run("cc", "-shared", "-fPIC", "-O1", "-o", library, ROOT / "tests/preload.c", "-ldl", check=True)
    return {**os.environ, "LD_PRELOAD": str(library), **variables}


def outcome(*words, **how):
    """Runs a program in a new folder. Returns (status, output, errors, {name: content} of the files that it left)."""
    with tempfile.TemporaryDirectory() as folder:
        ran = run(*words, cwd=folder, **how)
        return ran.returncode, ran.stdout, ran.stderr, {path.name: path.read_bytes() for path in Path(folder).iterdir()}


def outcomes(*words, **how):
    """Runs a program again and again; in run n, the nth request for memory is refused. Returns a list of what `outcome`
    returns for each run. The last run is the first one without a refused request."""
    found, is_refused = [], True
    while is_refused:
        *ran, files = outcome(*words, env=preload(Path.cwd(), REFUSED=str(len(found) + 1)), **how)
        is_refused = files.pop("refused", None) is not None
        found.append((*ran, files))
    return found
