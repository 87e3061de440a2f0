"""Makes a Solver's calls: brief ones by the library, and others, which may last, by the programs `ffosolve` and
`ffoscores`, since these can be stopped. `help(ffosolve)` says how."""
import contextlib
import contextvars
import ctypes
import fcntl
import math
import numbers
import os
import re
import reprlib
import select
import shutil
import signal
import subprocess
import sys
import threading
import time
import weakref
from concurrent.futures import CancelledError
from typing import Any, Callable, Dict, Iterable, Iterator, List, Optional, Tuple, TypeVar

from ._answers import Kind, Scoring
from ._library import MOST_EMPTIES, NO_SCORE, CAnswer, CMoveScores, folder_of, search, version_of
from ._obf import parsed
from ._positions import Position
from ._refusals import NoMemory, Status, checked_number
from ._squares import NAMES
from ._text import BOOK_HEADER

T = TypeVar("T")
Seconds = Optional[float]  # None stands for any time
Count = Optional[int]  # of threads; None stands for as many as there are processors that this process may use
ALL_SQUARES = 2**64 - 1
BRIEF, LIGHTEST = 4096, 8  # a call is brief for so many positions with up to so many empty squares: see `is_brief`
# The weight of a position that alone is not brief (`slices_of` says what the others weigh), and of positions that may
# get lost at a timeout.
HEAVY, MOST_LOST = 128, 16_384
CHECK_SECONDS = 0.2  # how often a waiting call finds out whether it has to stop, also by a signal to another thread
# Stand for what is not found. No position has all squares as legal moves.
UNSOLVED = {CAnswer: CAnswer(NO_SCORE), CMoveScores: CMoveScores((NO_SCORE,) * 64, ALL_SQUARES)}
STARTS = threading.RLock()  # is held while this process has ends of pipes that a forked process must not have
PATHS: Dict[Tuple[str, ctypes.CDLL], str] = {}  # what `program` has found
PROCESSES: "weakref.WeakSet[Process]" = weakref.WeakSet()  # those that there are
CANCELLED = contextvars.ContextVar("cancelled", default=threading.Event())  # is set once nobody awaits the result


class TimedOut(TimeoutError):
    """A call took more than `timeout` seconds. Of one for many positions, `done` are solved, and `found` is what the
    call returns, but as if each other position had taken more than `each`; that of an iterator is None."""

    def __init__(self, *text: str, done: int = 0, found: Any = None) -> None:
        super().__init__(*text)
        self.done, self.found = done, found


def threads_of(threads: Count) -> int:
    """The number of threads that `threads` stands for. Raises TypeError and ValueError for a wrong one."""
    return len(os.sched_getaffinity(0)) if threads is None else checked_number("threads", threads, 1)


def seconds_of(name: str, seconds: Seconds) -> float:
    """How long the `seconds` of an argument are. Raises TypeError and ValueError for what is no time."""
    if seconds is None:
        return math.inf
    if not isinstance(seconds, numbers.Real):
        raise TypeError(f"{name} is a number of seconds, not {reprlib.repr(seconds)}")
    if not seconds >= 0:
        raise ValueError(f"{name} is at least 0, not {seconds}")
    return float(seconds)


def is_brief(count: int, empties: int) -> bool:
    """Whether a call for `count` positions with at most `empties` empty squares takes 0.4 seconds at most."""
    return count << 2 * max(0, empties - LIGHTEST) <= BRIEF


def program(name: str, call: "SolverCall") -> str:
    """The path of the program `name` that has the library's version. It is in the library's folder, as in the wheel; in
    the one above, as in a checkout; in `bin` beside the library's `lib`; or on the path. Raises FileNotFoundError,
    ChildProcessError if somebody ended it before it told its version, and what `Process.output` raises."""
    key = name, call.library
    if key in PATHS:
        return PATHS[key]
    folder, wanted = folder_of(call.library), f"{name} {version_of(call.library)}"
    bin_folder = re.sub("/lib(64)?(/[^/]*-linux-gnu)?(/glibc-hwcaps/[^/]*)?$", "/bin", folder)
    places = (f"{folder}/{name}", f"{folder}/../{name}", f"{bin_folder}/{name}", name)
    for found in filter(None, (shutil.which(place) for place in places)):
        status, printed, _ = Process([os.path.abspath(found), "--version"]).output("", call)
        if printed == f"{wanted}\n".encode():
            return PATHS.setdefault(key, os.path.abspath(found))
        if not printed and status <= 0:
            raise ended(status)
    raise FileNotFoundError(f"no process can be started: {wanted} is neither beside {folder} nor on the path")


def ended(status: int, errors: str = "") -> ChildProcessError:
    how = f"was ended by signal {-status}" if status < 0 else f"ended with status {status}: {errors}"
    return ChildProcessError(f"the process that solved {how}")


class Process:
    """A running program that reads a list and maybe a book. It ends with this object, or this process: then nothing
    reads its errors any more, and the kernel kills it. Raises OSError if it can't be started."""

    def __init__(self, words: List[str], book: str = "") -> None:
        if sys.is_finalizing():
            raise OSError("Python is ending, so it can't start a process")
        masked = signal.pthread_sigmask(signal.SIG_BLOCK, {signal.SIGINT})  # Ctrl-C is for this process alone
        try:
            with STARTS, open(os.memfd_create("book"), "w") as claims:
                print(book, file=claims, end="", flush=True)
                words += ["--book-in", f"/dev/fd/{claims.fileno()}"] * bool(book)
                self.errors, theirs = (open(end, mode, 0) for end, mode in zip(os.pipe(), ("rb", "wb")))
                with theirs:
                    self.process: Any = subprocess.Popen(
                        words, stdin=subprocess.PIPE, stdout=subprocess.PIPE, stderr=theirs, cwd="/", encoding="ascii",
                        pass_fds=[claims.fileno()])
                    PROCESSES.add(self)
                    fcntl.fcntl(theirs, fcntl.F_SETSIG, signal.SIGKILL)
                    fcntl.fcntl(theirs, fcntl.F_SETOWN, self.process.pid)
                    fcntl.fcntl(theirs, fcntl.F_SETFL, os.O_ASYNC)
        finally:
            signal.pthread_sigmask(signal.SIG_SETMASK, masked)

    def output(self, lines: str, call: "SolverCall", end: float = math.inf) -> Tuple[int, bytes, str]:
        """Returns the program's status, output and errors for a list; or kills it, and raises what `call` raises then,
        or at the time `end`."""
        ready, printed, piece = select.poll(), b"", b"-"
        ready.register(self.process.stdout)
        try:
            with STARTS, contextlib.suppress(BrokenPipeError), self.process.stdin as to:
                to.write(lines)
            while piece:
                if ready.poll(1000 * call.wait_seconds(end)):
                    piece = os.read(self.process.stdout.fileno(), 1 << 16)
                    printed += piece
            return self.process.wait(), printed, self.errors.read().decode(errors="replace").strip()
        finally:
            self.process.kill()
            with contextlib.suppress(BrokenPipeError), self.errors, self.process:
                pass

    def find(self, lines: str, call: "SolverCall", end: float, found: Any) -> None:
        """Writes what the program prints for a list to the records of `found`, except for the `moves` of a CMoveScores.
        Raises what `output` raises, NoMemory, or ChildProcessError if the program was ended."""
        status, printed, errors = self.output(lines, call, end)
        if errors.endswith("out of memory"):
            raise NoMemory()
        if status or printed.count(b"\n") - 2 * printed.startswith(b"[1]") != lines.count("\n"):
            raise ended(status, errors)
        rows = printed.decode().splitlines()
        for it, row in zip(found, rows if isinstance(found[0], CMoveScores) else rows[1:]):
            if isinstance(it, CMoveScores):
                scores = dict(parsed(row, None)[3])
                it.scores[:] = [scores.get(name, NO_SCORE) for name in NAMES]
            else:
                _, score, moves, _ = row.split()
                it.score, it.kind = int(score), {"PS": Kind.PASS, "--": Kind.OVER}.get(moves, Kind.MOVES)
                it.best = sum(1 << NAMES.index(move) for move in moves.split(",") if it.kind == Kind.MOVES)


def forget() -> None:
    """Closes what a forked process has of its parent's programs."""
    for it in PROCESSES:
        it.errors.close()
        it.process.stdin.close()
    PROCESSES.clear()
    STARTS.release()


os.register_at_fork(before=STARTS.acquire, after_in_parent=STARTS.release, after_in_child=forget)


class SolverCall:
    """Makes the calls of a library for one call of a Solver, until this has taken `timeout` seconds, its task is
    cancelled, or it sets `is_left`. A program gets `threads`, and `each` seconds for a position. A call that `keeps`
    what it finds does not raise TimedOut. Raises TypeError and ValueError for a wrong number."""

    def __init__(self, library: ctypes.CDLL, timeout: Seconds = None, threads: Count = 1, each: Seconds = None,
                 keeps: bool = False) -> None:
        self.library, self.timeout, self.keeps = library, timeout, keeps
        self.threads, self.each = threads_of(threads), seconds_of("each", each)
        self.end = time.monotonic() + seconds_of("timeout", timeout)
        self.is_left = self.is_late = False
        self.done = 0  # how many answers were yielded
        self.unsolved: List[int] = []  # how many positions are not solved, of each batch with such ones
        self.workers = min(self.threads - 1, 64)  # as many as a program takes
        self.turn: Any = threading.Lock() if self.threads > 1 else contextlib.nullcontext()
        # How much weight the positions of a program may have, unless it gets only one: they may be lost together.
        self.most_weight = HEAVY - 1 if each is not None else MOST_LOST if timeout is not None else math.inf

    def wait_seconds(self, end: float = math.inf) -> float:
        """For how long to wait before the next look. Raises TimedOut and CancelledError if calls have to stop, and
        TimedOut also at the time `end`."""
        self.check()
        if (left := min(self.end, end) - time.monotonic()) <= 0:
            raise TimedOut(f"not finished within {self.timeout} seconds")
        return min(left, CHECK_SECONDS)

    def check(self) -> None:
        if self.is_left or CANCELLED.get().is_set():
            raise CancelledError

    def counted(self, found: Iterable[T]) -> Iterator[T]:
        """Yields what is found for positions, and counts those that are solved."""
        for it in found:
            self.done += it is not None
            yield it

    def timed_out(self, done: int, of: str = "", found: Any = None) -> TimedOut:
        text = f"not finished within {self.timeout} seconds; positions solved: {done}{of}"
        return TimedOut(text, done=done, found=found)

    def kept(self, found: T, count: int) -> T:
        """Returns what was found for so many positions. If time was over before the last, raises TimedOut with it."""
        if self.is_late:
            raise self.timed_out(count - sum(self.unsolved), f" of {count}", found)
        return found

    def has_program(self) -> bool:
        with contextlib.suppress(OSError):
            return bool(program("ffosolve", self))
        return False

    def search(self, empties: int, name: str, scoring: Scoring, entries: int, positions: Any, found: Any) -> int:
        """Makes the call that `_library.search` describes, for positions with at most `empties` empty squares; unless
        it is brief, by a program. What is not found in time is UNSOLVED. Raises TimedOut, CancelledError, and what
        `Process.find` raises."""
        try:
            self.wait_seconds()
            if is_brief(len(positions), empties) or not self.is_run(name, scoring, entries, positions, found):
                return search(self.library, name, scoring, entries, positions, found)
        except TimedOut:
            if time.monotonic() >= self.end:
                if not self.keeps:
                    raise
                self.is_late = True
            found[:] = [UNSOLVED[type(found[0])]] * len(found)
            self.unsolved.append(len(found))
        return Status.DONE

    def is_run(self, name: str, scoring: Scoring, entries: int, positions: Any, found: Any) -> bool:
        """Lets a program make a call. Returns False if none can be started, and the call has no limit of time."""
        asked = [Position(it.own, it.opp) for it in positions]
        lines = "".join(f"{position.to_obf()}\n" for position in asked)
        with self.turn:
            self.wait_seconds()
            try:
                process = self.started(name, scoring, entries, asked[0], found[0])
            except OSError as error:
                if min(self.end, self.each) < math.inf or isinstance(error, ChildProcessError):
                    raise
                self.check()
                return False
            process.find(lines, self, time.monotonic() + self.each, found)
        return True

    def started(self, name: str, scoring: Scoring, entries: int, position: Position, claim: Any) -> Process:
        path, book = program("ffoscores" if "move_scores" in name else "ffosolve", self), ""
        if name == "ffosolve_confirm" and abs(claim.score) <= 64:
            book = f"{BOOK_HEADER}{scoring}\n{position.canonical().to_obf(moves={'PS': claim.score})}\n"
        return Process([path, f"--workers={self.workers}", f"--table={entries}", f"--scoring={scoring}",
                        f"--max-empties={MOST_EMPTIES}"], book)


async def to_thread(func: Callable[..., T], /, *args: Any, **kwargs: Any) -> T:
    """Calls `func(*args, **kwargs)` in a thread and returns what it returns, as `asyncio.to_thread` does. If the task
    that awaits this is cancelled, also by `asyncio.wait_for` or a TaskGroup, a Solver's call that `func` makes stops
    within half a second if `help(ffosolve)` says it can, and raises concurrent.futures.CancelledError in the thread:

        answer = await asyncio.wait_for(ffosolve.to_thread(solver.solve, position), 60)
    """
    import asyncio  # which takes longer to import than all of this package
    cancelled, context = threading.Event(), contextvars.copy_context()
    context.run(CANCELLED.set, cancelled)
    try:
        return await asyncio.get_running_loop().run_in_executor(None, lambda: context.run(func, *args, **kwargs))
    except BaseException:
        cancelled.set()
        raise
