"""Solves the unsolved parts of a run (see `Run`) on an engine: threads of this machine, or a cluster."""
import contextlib
import os
import resource
import threading
import time
from collections import defaultdict, deque
from concurrent.futures import FIRST_COMPLETED, Future, ThreadPoolExecutor, wait
from datetime import timedelta
from typing import DefaultDict, Dict, List, Optional, Protocol, Set, Tuple

from .._command_line import Refusal, counted, say, show
from .folder import Part, Run
from .solve import Solved

HERE = "this machine"
FILES = 9  # that a job may have open at once, with its share of the others
LONG_SECONDS = 600  # after which a part that is still being solved is named
# A part; its results, or None; why it failed, or "" if it has only to be sent again; where, once for each try.
Outcome = Tuple[Part, Optional[Solved], str, List[str]]


class Engine(Protocol):
    """What solves parts for `solve_parts`."""

    tries: int  # after which a part is not solved
    threads: int  # that solve parts, each one at a time
    running: Dict[int, Tuple[str, float]]  # {number: (host, start time)} of parts at work; some may be solved since
    trouble: str = ""  # why nothing is known of the machines at work, if so
    silent: int = 0  # workers that have parts and do not answer

    def look(self) -> None:
        """Notes what is at work, and any trouble. `solve_parts` calls it every second."""
        return  # by default, these are known

    def most(self, is_alone: bool) -> int:
        """Returns how many parts may be sent at a time; if `is_alone`, each to a machine of its own."""

    def send(self, part: Part, failed: List[str]) -> Future[Outcome]:
        """Begins to solve a part, if possible elsewhere than where it has `failed`."""


class Progress:
    """What is left of a run on an engine. `done` is the work that this command has done, in `seconds` of its parts."""

    def __init__(self, run: Run, engine: Engine) -> None:
        self.run, self.engine, self.done, self.seconds = run, engine, 0.0, 0.0

    def running(self) -> List[Tuple[Part, str, float]]:
        """Returns the parts at work, longest first, each with its host and when it began."""
        at_work = [*self.engine.running.items()]  # a copy, since parts end meanwhile
        found = [(self.run.parts[number], host, start) for number, (host, start) in at_work]
        return sorted([one for one in found if one[0].digest not in self.run.statuses], key=lambda one: one[2])

    def left(self) -> Optional[float]:
        """Returns the expected seconds until all is solved, or None before a tenth of this command's work is done."""
        work = sum({part.digest: part.weight for part in self.run.unsolved()}.values())
        if not self.done or self.done * 9 < work:
            return None
        rate, now, running = self.seconds / self.done, time.monotonic(), self.running()
        rests = [max(0, part.weight * rate - now + start) for part, _, start in running]
        waiting = work - sum(part.weight for part, *_ in running)
        return float(max(rests + [(waiting * rate + sum(rests)) / max(1, min(self.engine.threads, len(running)))]))

    def text(self) -> str:
        """Returns the line to show, with any trouble. It names the longest part, from LONG_SECONDS on."""
        run, running = self.run, self.running()
        hosts, lines = {host for host, _ in [*self.engine.running.values()]}, sum(part.lines for part in run.unsolved())
        left = self.left() if hosts and not self.engine.trouble else None
        text = f"{100 * (run.count - lines) // run.count}%, "
        text += f"{timedelta(seconds=round(left))} left, " if left is not None else ""
        silent = f", waiting for {counted(self.engine.silent, 'silent worker')}" if self.engine.silent else ""
        text += self.engine.trouble or f"{counted(len(hosts), 'machine') if hosts else 'no machine'} at work{silent}"
        text += f", parts {run.solved_count} of {len(run.parts)}"
        for part, host, start in running[:1]:
            if (seconds := time.monotonic() - start) >= LONG_SECONDS:
                text += f"; {part} has been running for {timedelta(seconds=round(seconds))} on {host}"
        return text


class Threads(Engine):
    """Threads of this machine, each running one program at a time."""

    tries = 1

    def __init__(self, run: Run, jobs: int) -> None:
        most = resource.getrlimit(resource.RLIMIT_NOFILE)[1]
        resource.setrlimit(resource.RLIMIT_NOFILE, (most, most))
        fit = jobs_that_fit(jobs, 2 + int(run.task["speed"]["--workers"]))  # a thread here, and those of the program
        if fit < jobs:
            say(f"{fit} of {jobs} jobs work at a time, since no more files or processes are allowed (ulimit -n, -u)")
        self.run, self.pool, self.threads, self.running = run, ThreadPoolExecutor(fit), fit, {}

    def most(self, is_alone: bool) -> int:
        return self.threads

    def send(self, part: Part, failed: List[str]) -> Future[Outcome]:
        self.running[part.number] = HERE, time.monotonic()
        try:
            future = self.pool.submit(lambda: (part, *self.run.solve(part), [HERE]))
        except RuntimeError as why:
            raise Refusal(f"{why}: too little memory, or too few processes, are allowed (ulimit -v, -u)") from None
        future.add_done_callback(lambda _: self.running.pop(part.number))
        return future


def jobs_that_fit(jobs: int, threads: int) -> int:
    """Returns how many jobs can work at a time, from 1 to `jobs`. Each takes FILES files and some threads."""
    count, end = 0, threading.Event()
    with contextlib.suppress(OSError, RuntimeError), contextlib.ExitStack() as taken:
        pool = taken.enter_context(ThreadPoolExecutor(jobs * threads))
        taken.callback(end.set)
        while count < jobs:
            for _ in range(FILES):
                taken.enter_context(open(os.devnull))
            for _ in range(threads):
                pool.submit(end.wait)
            count += 1
    return max(1, count)


def solve_parts(run: Run, engine: Engine, quiet: bool) -> None:
    """Solves a run's unsolved parts, except those that fail `engine.tries` times. One that has failed twice is tried
    once more after all others, alone. If `quiet`, shows only failures."""
    waiting, progress = deque({part.digest: part for part in run.unsolved()}.values()), Progress(run, engine)
    failures: DefaultDict[int, List[str]] = defaultdict(list)  # {number: where that part failed}
    sent: Set[Future[Outcome]] = set()
    is_terminal, due, shown, trouble = os.isatty(2), 0.0, time.monotonic(), ""
    while waiting or sent:
        while waiting and len(sent) < engine.most(is_alone=len(failures[waiting[0].number]) > 1):
            part = waiting.popleft()
            sent.add(engine.send(part, failures[part.number]))
        if (now := time.monotonic()) >= due:
            due = now + (1 if sent else 0.2)
            engine.look()
            if not quiet and (now >= shown + (1 if is_terminal else 60) or engine.trouble and not trouble):
                shown = now
                (show if is_terminal else say)(progress.text())
            trouble = engine.trouble
        time.sleep(0 if sent else 0.01)
        done, sent = wait(sent, timeout=max(0.01, due - now), return_when=FIRST_COMPLETED)
        for part, found, why, machines in [future.result() for future in done]:
            failed = failures[part.number]
            if why:
                say(f"{machines[0]} failed {part}: {why}")
                failed += machines
            if found:
                progress.done, progress.seconds = progress.done + part.weight, progress.seconds + found.seconds
            elif len(failed) < engine.tries:
                (waiting.append if len(failed) > 1 else waiting.appendleft)(part)
    show("")
